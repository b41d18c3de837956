# Completions of the command osek, for bash, as `osek --completions bash` prints them.

# The options of a subcommand, or of the command itself where none is given.
_osek_options() {
  case $1 in
    '') echo '--help --version --man --completions' ;;
    trace) echo '--help --in --explain --irq --progress --from --to --blocking' ;;
    upper) echo '--help --in --explain --irq --progress --alone' ;;
    vcd) echo '--help --in --explain --irq --progress --from --to' ;;
    timeline) echo '--help --in --explain --irq --progress --from --to --rows --perfetto' ;;
    stats) echo '--help --in --explain --irq --progress --csv --json --from --to --rules --limit --no-loss --no-refusal' ;;
    check) echo '--help --in --explain --all' ;;
    partitions) echo '--help --in --explain --joined' ;;
    class) echo '--help --in --explain' ;;
    show) echo '--help --in --explain' ;;
    bounds) echo '--help --in --explain --rules --apart --jitter --least --never --analysis --witness --into --witnesses --states --longest --upper --csv --json --limit --no-loss --no-refusal --progress' ;;
    report) echo '--help --in --explain --output --rules --apart --jitter --least --never --analysis --states --longest --upper --limit --no-loss --no-refusal --progress' ;;
    make) echo '--help --output --oil' ;;
    import) echo '--help --work --bend' ;;
  esac
}

# Offers, for the word at the cursor, subcommands, options, folders behind options that take one,
# or names of files.
_osek() {
  local word=${COMP_WORDS[COMP_CWORD]} before=${COMP_WORDS[COMP_CWORD - 1]} subcommand='' at
  local subcommands='trace upper vcd timeline stats check partitions class show bounds report make import help'
  # Bash makes a word of its own of a `=`.
  if [ "$word" = = ]; then
    word=''
  elif [ "$before" = = ]; then
    before=${COMP_WORDS[COMP_CWORD - 2]}
  fi
  for ((at = 1; at < COMP_CWORD; at++)); do
    case ${COMP_WORDS[at]} in
      -*) ;;
      *) subcommand=${COMP_WORDS[at]}; break ;;
    esac
  done
  COMPREPLY=()
  case $before in
    --completions)
      mapfile -t COMPREPLY < <(compgen -W 'bash zsh' -- "$word")
      return
      ;;
    --in | --into | --witnesses | -o | --output)
      compopt -o filenames 2> /dev/null
      mapfile -t COMPREPLY < <(compgen -d -- "$word")
      return
      ;;
    --from | --to | --rows | --limit | --apart | --jitter | --least | --never | --witness | --states | --longest | --upper) return ;;
  esac
  case $subcommand,$word in
    *,-*) mapfile -t COMPREPLY < <(compgen -W "$(_osek_options "$subcommand")" -- "$word") ;;
    ,* | help,*) mapfile -t COMPREPLY < <(compgen -W "$subcommands" -- "$word") ;;
    *)
      compopt -o filenames 2> /dev/null
      mapfile -t COMPREPLY < <(compgen -f -- "$word")
      ;;
  esac
}

complete -F _osek osek
