# bash completion for pajurenda: subcommands, options, and files where a word is a file

# what may stand as word number $2 after the subcommand $1
_pajurenda_word()
{
	case $1:$2 in
	:*) echo commands ;;
	help:0) echo topics ;;
	sheet:0) echo sheets ;;
	must:0) echo musts ;;
	owners:0) echo lists ;;
	hex:0) echo texts ;;
	release:2) echo bases ;;
	history:0 | split:[01] | join:* | read:0 | release:[013] | setting:0 | audit:[01] | verify:* | mend:[012] | sheet\ fold:* | handoff:0 | map:0 | place:[01] | station:0) echo files ;;
	sheet\ empty:[01] | sheet\ start:[01] | sheet\ make:[012] | sheet\ show:[01] | owners\ all:[01] | owners\ show:[01] | must\ show:[01] | hex\ export:[01] | hex\ import:[01]) echo files ;;
	*) echo nothing ;;
	esac
}

# the options of the subcommand $1; every one has a document and a limit to its time
_pajurenda_options()
{
	case $1 in '' | help | sheet | owners | must | hex) ;; *) echo --json --seconds ;; esac
	case $1 in
	'') echo '--help --version' ;;
	read) echo '--modules --words --help' ;;
	audit) echo '--number --note --bytes --ranges --quiet --report --text --list --reports --names --names-strict --must --vendor-sha256 --replace --help' ;;
	verify) echo '--number --note --owners --owner --base --quiet --report --text --list --reports --names --names-strict --must --vendor-sha256 --replace --help' ;;
	history) echo '--report --replace --help' ;;
	mend) echo '--number --note --bytes --quiet --report --text --hex --names --names-strict --vendor-sha256 --replace --help' ;;
	split | join) echo '--replace --help' ;;
	setting | sheet\ start | sheet\ show | owners\ show | must\ show) echo '--names --names-strict --help' ;;
	sheet\ fold) echo '--names --names-strict --image --replace --help' ;;
	sheet\ make) echo '--names --names-strict --replace --help' ;;
	sheet\ empty | owners\ all) echo '--replace --help' ;;
	release) echo '--owners --owner --after --record --no-record --names --names-strict --hex --vendor-sha256 --replace --help' ;;
	hex\ export) echo '--base --replace --help' ;;
	hex\ import) echo '--replace --help' ;;
	*) echo '--help' ;;
	esac
}

# one word before the current one: the subcommand, its second word, or one of its own; in command and words
_pajurenda_take()
{
	if [[ -z $command ]]; then
		command=$1
	elif [[ $command == sheet || $command == owners || $command == must || $command == hex ]]; then
		command="$command $1"
	else
		words=$((words + 1))
	fi
}

# what may stand in the place of the current word: the value of the option before it, an option, or a word
_pajurenda_kind()
{
	case $value:$ended$current in
	--owner:*) echo numbers ;;
	--seconds:* | --number:* | --note:*) echo nothing ;;
	--base:*) echo bases ;;
	--owners:* | --report:* | --text:* | --list:* | --reports:* | --names:* | --must:* | --hex:* | --image:* | --record:* | --after:*) echo files ;;
	--vendor-sha256:*) echo nothing ;;
	:-*) echo options ;;
	*) _pajurenda_word "$command" "$words" ;;
	esac
}

# one word before the current one, or the `=` between an option and its value
_pajurenda_pass()
{
	if [[ -n $value ]]; then
		[[ $1 == '=' ]] || value=''
		return
	fi
	case $ended$1 in
	--) ended=yes ;;
	--owners | --owner | --report | --text | --list | --reports | --names | --must | --base | --hex | --image | --record | --after | --vendor-sha256 | --seconds | --number | --note)
		value=$1
		;;
	-?*) ;;
	*) _pajurenda_take "$1" ;;
	esac
}

_pajurenda()
{
	local current=${COMP_WORDS[COMP_CWORD]} command='' words=0 ended='' offered='' value='' i
	for ((i = 1; i < COMP_CWORD; i++)); do
		_pajurenda_pass "${COMP_WORDS[i]}"
	done
	[[ -z $value || $current != '=' ]] || current=''
	COMPREPLY=()
	case $(_pajurenda_kind) in
	options) offered=$(_pajurenda_options "$command") ;;
	numbers) offered='1 2' ;;
	commands) offered='read release sheet must owners setting audit verify mend hex history split join handoff map place station help' ;;
	topics) offered='read release sheet must owners setting audit verify mend hex history split join handoff map place station' ;;
	sheets) offered='empty start make show fold' ;;
	lists) offered='all show' ;;
	texts) offered='export import' ;;
	musts) offered='show' ;;
	bases) offered='keep' ;;
	files)
		compopt -o filenames 2>/dev/null
		mapfile -t COMPREPLY < <(compgen -f -- "$current")
		return
		;;
	esac
	mapfile -t COMPREPLY < <(compgen -W "$offered" -- "$current")
}

complete -F _pajurenda pajurenda
