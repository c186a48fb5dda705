" Vim compiler file: occam

if exists("current_compiler")
  finish
endif
let current_compiler = "occam"

" :make says whether the file is refused, and where, and which PROCs no call reaches; it runs nothing. Each is a line of JSON, in which
" the text and the hint stand behind the name. The plain line of a refusal, which tells less, is passed over.
CompilerSet makeprg=occam\ --check\ --json\ %:S
let s:place = '"file":"%f"\,"line":%l\,"column":%c\,"end":%k\,'
let &l:errorformat = '%E{"kind":"refused"\,' . s:place . '"number":%n\,"name":"%*[A-Za-z]"\,"text":"%m"}'
      \ . ',%W{"kind":"unchecked"\,' . s:place . '%m}'
      \ . ',%-G%.%#'
