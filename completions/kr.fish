# Completions of kr for fish, made by tools/completions.

# Whether this many words come before, the command is this, and no option is behind it.
function __kr_at
    set -l words (commandline -opc)
    test (count $words) -eq $argv[1]; and test "$words[2]" = "$argv[2]"; and not string match -q -- '-*' "$words[3]"
end

# Whether this command and this option come before, and nothing else.
function __kr_behind
    set -l words (commandline -opc)
    test (count $words) -eq 3; and test "$words[2]" = "$argv[1]"; and test "$words[3]" = "$argv[2]"
end

# Files of this kind, and folders.
function __kr_files
    __fish_complete_suffix .$argv[1] | string match -r ".*(?:/|[.]$argv[1])\$"
end

complete -c kr -f
complete -c kr -n '__kr_at 1 ""; or __kr_at 2 help' -a check -d 'is every schedule under TABLE serializable in commit order?'
complete -c kr -n '__kr_at 1 ""; or __kr_at 2 help' -a run -d 'what does this schedule do?'
complete -c kr -n '__kr_at 1 ""; or __kr_at 2 help' -a judge -d 'are these schedules serializable in commit order?'
complete -c kr -n '__kr_at 1 ""; or __kr_at 2 help' -a threads -d 'run a script by several threads'
complete -c kr -n '__kr_at 1 ""; or __kr_at 2 help' -a explain -d 'why is TABLE rejected, and what mends it?'
complete -c kr -n '__kr_at 1 ""; or __kr_at 2 help' -a view -d 'the same, or a run, as an HTML page'
complete -c kr -n '__kr_at 1 ""; or __kr_at 2 help' -a trace -d 'does the log of an engine fit TABLE? (kr help trace has more)'
complete -c kr -n '__kr_at 1 ""; or __kr_at 2 help' -a suite -d 'make tests of an engine'
complete -c kr -n '__kr_at 1 ""; or __kr_at 2 help' -a relax -d 'what does TABLE block needlessly?'
complete -c kr -n '__kr_at 1 ""; or __kr_at 2 help' -a help -d 'what a command takes and answers'
complete -c kr -n '__kr_at 1 ""; or __kr_at 2 help' -a version -d 'the version'
complete -c kr -n '__kr_at 2 check' -a '@kvl @kvl-update @im @range-key @record-gap @range-ghost @next-key-ghost' -d 'bundled table'
complete -c kr -n '__kr_at 2 check' -a '(__kr_files toml)'
complete -c kr -n '__kr_at 2 run' -a '@kvl @kvl-update @im @range-key @record-gap @range-ghost @next-key-ghost' -d 'bundled table'
complete -c kr -n '__kr_at 2 run' -a '(__kr_files toml)'
complete -c kr -n '__kr_at 3 run' -a '(__kr_files json)'
complete -c kr -n '__kr_at 2 judge' -a '@kvl @kvl-update @im @range-key @record-gap @range-ghost @next-key-ghost' -d 'bundled table'
complete -c kr -n '__kr_at 2 judge' -a '(__kr_files toml)'
complete -c kr -n 'test (count (commandline -opc)) -ge 3; and __kr_at (count (commandline -opc)) judge' -a '(__kr_files json)'
complete -c kr -n '__kr_at 2 threads' -a '@kvl @kvl-update @im @range-key @record-gap @range-ghost @next-key-ghost' -d 'bundled table'
complete -c kr -n '__kr_at 2 threads' -a '(__kr_files toml)'
complete -c kr -n '__kr_at 3 threads' -a '(__kr_files json)'
complete -c kr -n '__kr_at 4 threads' -a --workers -d 'run its transactions by N threads, 1 to 64'
complete -c kr -n '__kr_at 2 explain' -a '@kvl @kvl-update @im @range-key @record-gap @range-ghost @next-key-ghost' -d 'bundled table'
complete -c kr -n '__kr_at 2 explain' -a '(__kr_files toml)'
complete -c kr -n '__kr_at 3 explain' -a --script -d 'print the script of the schedule of cause N, for kr run'
complete -c kr -n '__kr_at 2 explain' -s h -l help -d 'print this text'
complete -c kr -n '__kr_at 2 explain' -l version -d 'print the version'
complete -c kr -n '__kr_at 2 view' -a '@kvl @kvl-update @im @range-key @record-gap @range-ghost @next-key-ghost' -d 'bundled table'
complete -c kr -n '__kr_at 2 view' -a '(__kr_files toml)'
complete -c kr -n '__kr_at 3 view' -a '(__kr_files json)'
complete -c kr -n '__kr_at 2 view' -s h -l help -d 'print this text'
complete -c kr -n '__kr_at 2 view' -l version -d 'print the version'
complete -c kr -n '__kr_at 2 trace' -a '@kvl @kvl-update @im @range-key @record-gap @range-ghost @next-key-ghost' -d 'bundled table'
complete -c kr -n '__kr_at 2 trace' -a '(__kr_files toml)'
complete -c kr -n '__kr_at 2 trace' -l serial -d 'no table: whether the committed answers are serializable in commit order'
complete -c kr -n '__kr_at 2 trace' -l some-order -d 'no table: whether they are in some order'
complete -c kr -n '__kr_at 3 trace' -a '(__kr_files trace)'
complete -c kr -n '__kr_at 4 trace' -a --tell -d 'no lines: part N, from 1, as a text, with the line that differs'
complete -c kr -n '__kr_behind trace --serial' -a '(__kr_files trace)'
complete -c kr -n '__kr_behind trace --some-order' -a '(__kr_files trace)'
complete -c kr -n '__kr_at 2 trace' -s h -l help -d 'print this text'
complete -c kr -n '__kr_at 2 trace' -l version -d 'print the version'
complete -c kr -n '__kr_at 2 suite' -a '@kvl @kvl-update @im @range-key @record-gap @range-ghost @next-key-ghost' -d 'bundled table'
complete -c kr -n '__kr_at 2 suite' -a '(__kr_files toml)'
complete -c kr -n '__kr_at 3 suite' -a --left -d 'print the entries that no part tells apart, and how many'
complete -c kr -n '__kr_at 2 suite' -s h -l help -d 'print this text'
complete -c kr -n '__kr_at 2 suite' -l version -d 'print the version'
complete -c kr -n '__kr_at 2 relax' -a '@kvl @kvl-update @im @range-key @record-gap @range-ghost @next-key-ghost' -d 'bundled table'
complete -c kr -n '__kr_at 2 relax' -a '(__kr_files toml)'
complete -c kr -n '__kr_at 3 relax' -a --write -d 'print the table with one relaxation after another, as long as a script shows one'
complete -c kr -n '__kr_at 3 relax' -a --why -d 'print what each change of this entry does, as of fetch-hit current or X beside S'
complete -c kr -n '__kr_at 2 relax' -s h -l help -d 'print this text'
complete -c kr -n '__kr_at 2 relax' -l version -d 'print the version'
