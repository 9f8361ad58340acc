#!/bin/bash
# completion.bash FILE: tries the completion in a folder with the files `image` and `a b`. Prints the count of checks.
set -u
# shellcheck disable=SC1090
source "$1" || exit 1
count=0

# offers "WANTED" WORDS..: the last word is the one to complete; what is offered, in order and separated by `|`
offers() {
	local wanted=$1 got
	shift
	COMP_WORDS=(pajurenda "$@")
	COMP_CWORD=$#
	COMPREPLY=()
	_pajurenda
	got=$(printf '%s\n' "${COMPREPLY[@]}" | sort | paste -sd '|')
	[[ $got == "$wanted" ]] || { echo "completion of '$*': $got, not $wanted" >&2; exit 1; }
	count=$((count + 1))
}

offers 'audit|handoff|help|hex|history|join|map|mend|must|owners|place|read|release|setting|sheet|split|station|verify' ''
offers 'a b|image' history ''
offers '' history image ''
offers 'a b|image' join image image image ''
offers '--help|--json|--replace|--seconds' split -
offers '--help|--json|--replace|--seconds' join -
offers '--help|--json|--replace|--report|--seconds' history -
offers 'audit' a
offers 'read|release' r
offers 'setting|sheet|split|station' s
offers '--help|--version' -
offers '--version' --v
offers 'audit|handoff|hex|history|join|map|mend|must|owners|place|read|release|setting|sheet|split|station|verify' help ''
offers '' help sheet ''
offers '' help owners ''
offers 'handoff|help|hex|history' h
offers '' help read ''
offers '--help|--json|--modules|--seconds|--words' read -
offers '--bytes|--help|--json|--list|--must|--names|--names-strict|--note|--number|--quiet|--ranges|--replace|--report|--reports|--seconds|--text|--vendor-sha256' audit -
offers '--base|--help|--json|--list|--must|--names|--names-strict|--note|--number|--owner|--owners|--quiet|--replace|--report|--reports|--seconds|--text|--vendor-sha256' verify -
offers 'keep' verify --base ''
offers '' verify --vendor-sha256 ''
offers 'a b|image' verify --must ''
offers 'a b|image' audit --names = ''
offers '--names|--names-strict|--note|--number' audit --n
offers '1|2' verify --owner ''
offers 'a b|image' verify --owners ''
offers 'a b|image' verify --report = ''
offers '--ranges|--replace|--report|--reports' audit image --r
offers '--ranges' --bytes audit image --ra
offers 'a b|image' audit --report ''
offers 'image' audit --report i
offers 'a b|image' audit --report page ''
offers 'a b|image' audit --report page image ''
offers '' audit --report page image image ''
offers 'a b|image' verify --list ''
offers 'a b|image' verify image image image image ''
offers 'a b|image' verify --text --report ''
offers 'verify' v
offers '--help|--json|--seconds' handoff -
offers '--help|--json|--seconds' map -
offers 'a b|image' map ''
offers '' map image ''
offers '--help|--json|--seconds' place -
offers 'a b|image' place ''
offers 'a b|image' place image ''
offers '' place image image ''
offers 'map|mend|must' m
offers '--bytes|--help|--hex|--json|--names|--names-strict|--note|--number|--quiet|--replace|--report|--seconds|--text|--vendor-sha256' mend -
offers 'a b|image' mend --hex ''
offers 'a b|image' mend image image ''
offers '' mend image image image ''
offers '--after|--help|--hex|--json|--names|--names-strict|--no-record|--owner|--owners|--record|--replace|--seconds|--vendor-sha256' release -
offers 'a b|image' release --after ''
offers 'a b|image' release --record ''
offers 'a b|image' release --hex ''
offers 'keep' release --hex image image image ''
offers 'export|import' hex ''
offers '--base|--help|--json|--replace|--seconds' hex export -
offers 'keep' hex export --base ''
offers 'a b|image' hex export --base 0x0 ''
offers 'a b|image' hex export image ''
offers '' hex export image image ''
offers '--help|--json|--replace|--seconds' hex import -
offers 'a b|image' hex import ''
offers '' hex import image image ''
offers '' hex nonsense ''
offers '--help' sheet -
offers '--help|--json|--names|--names-strict|--replace|--seconds' sheet make -
offers '--help|--json|--names|--names-strict|--seconds' sheet start -
offers '--help|--json|--names|--names-strict|--seconds' sheet show -
offers '--help|--json|--names|--names-strict|--seconds' setting -
offers '--help|--json|--names|--names-strict|--seconds' owners show -
offers '--help|--json|--names|--names-strict|--seconds' must show -
offers 'show' must ''
offers 'a b|image' must show ''
offers 'a b|image' must show --names image image ''
offers '' must show image image ''
offers '' must nonsense ''
offers 'a b|image' sheet start image ''
offers '' sheet start image image ''
offers 'a b|image' read ''
offers 'image' read i
offers 'a b' read 'a '
offers '' read image ''
offers 'a b|image' read --words ''
offers 'a b|image' audit --ranges image ''
offers '' audit image image ''
offers '' move ''
offers 'a b|image' release ''
offers 'a b|image' release image ''
offers 'keep' release image image ''
offers '' release image image 0
offers 'a b|image' release image image keep ''
offers '' release image image keep image ''
offers 'empty|fold|make|show|start' sheet ''
offers '--help|--image|--json|--names|--names-strict|--replace|--seconds' sheet fold -
offers 'a b|image' sheet fold --image ''
offers 'a b|image' sheet fold image image image image ''
offers 'make' sheet m
offers 'a b|image' sheet empty ''
offers 'a b|image' sheet empty image ''
offers '' sheet empty image image ''
offers 'a b|image' sheet make image image ''
offers '' sheet make image image image ''
offers 'a b|image' sheet show image ''
offers '' sheet show image image ''
offers '' sheet nonsense ''
offers 'owners' o
offers 'all|show' owners ''
offers 'show' owners s
offers '--help|--json|--replace|--seconds' owners all -
offers 'a b|image' owners all ''
offers 'a b|image' owners all image ''
offers '' owners all image image ''
offers 'a b|image' owners show ''
offers 'a b|image' owners show image ''
offers '' owners show image image ''
offers '' owners nonsense ''
offers 'a b|image' release --owners ''
offers 'image' release --owners i
offers '' release --owners -
offers 'image' release --owners = i
offers 'a b|image' release --owners =
offers '1|2' release --owner ''
offers '2' release --owner 2
offers '1|2' release --owner =
offers '1' release --owner = 1
offers 'a b|image' release --owners image ''
offers 'a b|image' release --owners image --owner 1 image ''
offers 'keep' release --owners = image --owner = 1 image image ''
offers 'keep' --owners keep --owner 2 release image image ''
offers 'a b|image' release image --owner 2 image keep ''
offers '' release --owners image --owner 1 image image keep image ''
offers '--owner|--owners' release --owners image --o
offers 'keep' release -- --owners image ''
offers 'a b|image' release -- image ''
offers 'a b|image' -- sheet show ''
offers 'a b|image' setting ''
offers '' setting image ''
offers '' setting image 40 ''
offers '' read -- -
offers 'a b|image' audit -- image ''
offers 'a b|image' handoff ''
offers 'a b|image' handoff --json ''
offers '' handoff image ''
offers 'a b|image' station ''
offers '--help|--json|--seconds' station -
offers '' station image ''
offers '' nonsense ''
offers '' read --seconds ''
offers 'a b|image' read --seconds 5 ''
[[ $(complete -p pajurenda) == *_pajurenda* ]] || { echo "no completion of the command" >&2; exit 1; }
echo $((count + 1))
