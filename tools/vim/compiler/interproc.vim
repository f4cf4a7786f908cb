" The analyser as a compiler: `:make` fills the list of errors. g:interproc_diagnose names another diagnose than the one
" beside these files, or than the installed one.
let s:beside = expand('<sfile>:p:h:h:h') . '/diagnose'
let s:tool = get(g:, 'interproc_diagnose', executable(s:beside) ? s:beside : 'interproc-diagnose')
let current_compiler = 'interproc'
execute 'CompilerSet makeprg=' . escape(shellescape(s:tool) . ' $* %:S', ' \|"')
CompilerSet errorformat=%f:%l:%c:\ %trror:\ %m,%f:%l:%c:\ %tarning:\ %m,%-Ginterproc:%.%#
