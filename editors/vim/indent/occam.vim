" Vim indent file: occam 2, in the profile of this compiler

if exists("b:did_indent")
  finish
endif
let b:did_indent = 1

setlocal indentexpr=OccamIndent()
setlocal indentkeys=o,O,0:
let b:undo_indent = "setlocal indentexpr< indentkeys<"

if exists("*OccamIndent")
  finish
endif

" The text of a line without its comment.
function s:Text(lnum)
  return substitute(getline(a:lnum), '\s*--.*$', '', '')
endfunction

" Whether the parts of a line, which stand a level deeper, have a process of their own each: choices, arms, options and variants.
function s:HasParts(text)
  return a:text =~# '^\s*\%(IF\|ALT\|PRI\s\+ALT\|CASE\s\)' || a:text =~# '?\s*CASE$'
endfunction

" Whether something stands a level deeper below a line.
function s:Opens(lnum)
  let text = s:Text(a:lnum)
  if s:HasParts(text) || text =~# '^\s*\%(SEQ\|PAR\|WHILE\|PROC\|CASE$\)\>' || text =~# '^\s*PROTOCOL\s\+\S\+$'
    return 1
  endif
  if text =~# ':$'
    return 0
  endif
  let round = a:lnum
  while round > 0 && indent(round) >= indent(a:lnum)
    let round = prevnonblank(round - 1)
  endwhile
  return round > 0 && s:HasParts(s:Text(round))
endfunction

" A line stands where the one above it does, a level deeper below one that opens a level; a colon that stands alone ends the nearest
" PROC or PROTOCOL above it.
function OccamIndent()
  let above = prevnonblank(v:lnum - 1)
  if above == 0
    return 0
  endif
  if getline(v:lnum) =~# '^\s*:\s*$'
    while above > 1 && s:Text(above) !~# '^\s*\%(PROC\|PROTOCOL\s\+\S\+$\)'
      let above = prevnonblank(above - 1)
    endwhile
    return indent(above)
  endif
  return indent(above) + (s:Opens(above) ? shiftwidth() : 0)
endfunction
