" `:compiler og` and `:make`: what `og prove` says of the file, in the list of errors.
if exists("current_compiler")
  finish
endif
let current_compiler = "og"
CompilerSet makeprg=og\ prove\ %:S\ 2>&1\ \|\ sed\ 's,^[0-9],%:\&,'
CompilerSet errorformat=%E%f:%l:%c:\ refused:\ %m,%E%f:%l:%c:\ condition\ %m,%E%f:%l:%c\ %m,%C\ \ %m,%-G%.%#
