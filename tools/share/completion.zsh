#compdef interproc interproc-explain interproc-diagnose interproc-page interproc-summary
# Completion of interproc and its tools for zsh.
local -a words_of_tool
words_of_tool=(
  '--delay[changes of a cut point before widening]:N:(0 1 2 3 4 8 16 32 64)'
  '--descend[rounds behind the ascent]:N:(0 1 2 3 4 8 16)'
  '--full[list implied bounds too]'
  '--domain[how values are kept]:domain:(dec full)'
)
case $service in
  *explain) words_of_tool+=('--fail[why this fail is not excluded]:N:' '--help' '--version') ;;
  *summary) words_of_tool+=('(--json --sarif)--infix[readable constraints]' '(--infix --sarif)--json' '(--infix --json)--sarif' '--help' '--version') ;;
  *diagnose|*page) words_of_tool+=('--help' '--version') ;;
esac
_arguments $words_of_tool '*:program:_files -g "*.(spl|choices)"'
