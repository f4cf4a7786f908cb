# Completion of interproc and its tools for fish.
for tool in interproc interproc-explain interproc-diagnose interproc-page interproc-summary
    complete -c $tool -l delay -x -a '0 1 2 3 4 8 16 32 64' -d 'changes of a cut point before widening'
    complete -c $tool -l descend -x -a '0 1 2 3 4 8 16' -d 'rounds behind the ascent'
    complete -c $tool -l full -d 'list implied bounds too'
    complete -c $tool -l domain -x -a 'dec full' -d 'how values are kept'
    if test $tool != interproc
        complete -c $tool -l help -d 'how it is called'
        complete -c $tool -l version
    end
end
complete -c interproc -n __fish_use_subcommand -a replay -d 'follow one run'
complete -c interproc -n __fish_use_subcommand -a bench -d 'analyse a made program'
complete -c interproc-explain -l fail -x -d 'why this fail is not excluded'
complete -c interproc-summary -l infix -d 'readable constraints'
complete -c interproc-summary -l json
complete -c interproc-summary -l sarif
