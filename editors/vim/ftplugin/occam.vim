" Vim filetype plugin: occam 2, in the profile of this compiler

if exists("b:did_ftplugin")
  finish
endif
let b:did_ftplugin = 1

" A level is two spaces, and no tab is read.
setlocal expandtab shiftwidth=2 softtabstop=2
setlocal comments=:-- commentstring=--\ %s
" Names may hold dots.
setlocal iskeyword=@,48-57,.

let b:undo_ftplugin = "setlocal expandtab< shiftwidth< softtabstop< comments< commentstring< iskeyword<"

compiler occam
let b:undo_ftplugin .= " | setlocal makeprg< errorformat<"

if exists("*OccamTold")
  finish
endif

" What JSON says of a refusal, or of a PROC, in words: `"text":"a","hint":"b"` without the marks is `a: b`.
function OccamTold(text)
  let said = substitute(a:text, '^"name":"\([^"]*\)","text":"\(.*\)"$', 'not checked: \1: \2', '')
  let said = substitute(said, '","hint":"$', '', '')
  let said = substitute(said, '","hint":"', ': ', '')
  return substitute(said, '\\\(.\)', '\1', 'g')
endfunction

function s:TellMade()
  if getqflist() != [] && get(b:, "current_compiler", "") ==# "occam"
    call setqflist(map(getqflist(), {_, item -> extend(item, {"text": OccamTold(item.text)})}), "r")
  endif
endfunction

augroup occam
  autocmd! QuickFixCmdPost make call s:TellMade()
augroup END
