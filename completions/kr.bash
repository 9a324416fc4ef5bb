# Completions of kr for bash, made by tools/completions.

_kr_words() { mapfile -t COMPREPLY < <(compgen -W "$*" -- "$cur"); }

_kr_files() { # files of this kind, and folders, beside what is offered; a name that begins with @ is no file's
  [[ $cur != @* ]] || return 0
  compopt -o filenames
  mapfile -t -O "${#COMPREPLY[@]}" COMPREPLY < <(compgen -f -X "!*$1" -- "$cur")
  mapfile -t -O "${#COMPREPLY[@]}" COMPREPLY < <(compgen -d -- "$cur")
}

_kr() {
  local cur words=() it after=
  COMPREPLY=()
  for it in "${COMP_WORDS[@]:0:COMP_CWORD+1}"; do # bash may part a word behind an @
    if [ "$after" = @ ]; then words[-1]+=$it; else words+=("$it"); fi
    after=$it
  done
  cur=${words[-1]}
  case ${#words[@]}.${words[1]}.${words[2]} in
  2.*) _kr_words check run judge threads explain view trace suite relax help version ;;
  3.check.*) _kr_words @kvl @kvl-update @im @range-key @record-gap @range-ghost @next-key-ghost; _kr_files .toml ;;
  3.run.*) _kr_words @kvl @kvl-update @im @range-key @record-gap @range-ghost @next-key-ghost; _kr_files .toml ;;
  3.judge.*) _kr_words @kvl @kvl-update @im @range-key @record-gap @range-ghost @next-key-ghost; _kr_files .toml ;;
  3.threads.*) _kr_words @kvl @kvl-update @im @range-key @record-gap @range-ghost @next-key-ghost; _kr_files .toml ;;
  3.explain.*) _kr_words @kvl @kvl-update @im @range-key @record-gap @range-ghost @next-key-ghost -h --help --version; _kr_files .toml ;;
  3.view.*) _kr_words @kvl @kvl-update @im @range-key @record-gap @range-ghost @next-key-ghost -h --help --version; _kr_files .toml ;;
  3.trace.*) _kr_words @kvl @kvl-update @im @range-key @record-gap @range-ghost @next-key-ghost --serial --some-order -h --help --version; _kr_files .toml ;;
  3.suite.*) _kr_words @kvl @kvl-update @im @range-key @record-gap @range-ghost @next-key-ghost -h --help --version; _kr_files .toml ;;
  3.relax.*) _kr_words @kvl @kvl-update @im @range-key @record-gap @range-ghost @next-key-ghost -h --help --version; _kr_files .toml ;;
  3.help.*) _kr_words check run judge threads explain view trace suite relax help version ;;
  4.trace.--serial) _kr_files .trace ;;
  4.trace.--some-order) _kr_files .trace ;;
  *.explain.-*) ;; # an option in the place of a table ends the line
  *.view.-*) ;; # an option in the place of a table ends the line
  *.trace.-*) ;; # an option in the place of a table ends the line
  *.suite.-*) ;; # an option in the place of a table ends the line
  *.relax.-*) ;; # an option in the place of a table ends the line
  4.run.*) _kr_files .json ;;
  4.threads.*) _kr_files .json ;;
  5.threads.*) _kr_words --workers ;;
  4.explain.*) _kr_words --script ;;
  4.view.*) _kr_files .json ;;
  4.trace.*) _kr_files .trace ;;
  5.trace.*) _kr_words --tell ;;
  4.suite.*) _kr_words --left ;;
  4.relax.*) _kr_words --write --why ;;
  *.judge.*) _kr_files .json ;;
  esac
}
complete -F _kr kr
