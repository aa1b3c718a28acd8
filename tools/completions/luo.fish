# fish completions of luo: put this file into ~/.config/fish/completions.

function __luo_at --description 'whether so many words stand before, the command among these'
    set -l words (commandline -opc)
    test (count $words) -eq $argv[1]; and begin
        test (count $argv) -eq 1; or contains -- $words[2] $argv[2..]
    end
end

function __luo_names --description 'the types or procedures of the file that is named'
    set -l words (commandline -opc)
    if test $argv[1] = procedure
        $words[1] format $words[3] 2>/dev/null | sed -n 's/^procedure \([A-Za-z0-9_]*\)(.*/\1/p'
    else
        $words[1] format $words[3] 2>/dev/null | sed -n 's/^type \([A-Za-z0-9_, ]*\) =.*/\1/p' | tr -d ' ' | tr ',' '\n'
    end
end

complete -c luo -f
complete -c luo -n '__luo_at 1' -a 'analyse format run list audit sample'
complete -c luo -n '__luo_at 2 analyse format run list audit' -F
complete -c luo -n '__luo_at 3 run' -a '(__luo_names procedure)'
complete -c luo -n '__luo_at 3 list' -a '(__luo_names type)'
