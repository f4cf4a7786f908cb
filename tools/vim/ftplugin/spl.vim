if exists('b:did_ftplugin')
  finish
endif
let b:did_ftplugin = 1
setlocal commentstring=//\ %s comments=s1:/*,mb:\ ,ex:*/,://
setlocal shiftwidth=2 expandtab suffixesadd=.spl
let b:match_words = '\<if\>:\<else\>:\<endif\>,\<while\>:\<done\>,\<begin\>:\<end\>'
compiler interproc
let b:undo_ftplugin = 'setlocal commentstring< comments< shiftwidth< expandtab< suffixesadd< makeprg< errorformat<'
