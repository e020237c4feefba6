#!/bin/sh
# Meshes a raw NRRD volume of any depth, slab by slab, with as many processes at a time as are asked for.
#
#     tools/slabs.sh --level=V [--pad=P] [--format=ply|obj] [--jobs=N] [--slabs=N] VOLUME MESH
#
# MESH is byte for byte what `isobench extract` gives for the whole, where that is not too large for it. So many jobs run at a
# time as --jobs says, or as there are processors. There are so many slabs as --slabs says, or as there are jobs, and more where a
# slab would be larger than the program takes. The program is $ISOSLAB, or the isoslab of this checkout, or the one on the path.
# While it runs, a folder beside MESH holds its parts. If a slab is refused or a file cannot be written, the program's message
# stands on standard error, MESH is as before, and the exit status is 1; wrong arguments end it with 2.
set -uf

usage() {
    sed -n '2,/^set/s/^# \{0,1\}//p' "$0" >&2
    exit 2
}

fail() {
    printf 'slabs.sh: %s\n' "$1" >&2
    exit 1
}

# One slab: its slices, under a header with their number, go to the program with these words.
# $1 is what to do; the line of the plan is: number, first slice, slices, and the numbers of the first vertex on an edge and centre.
part() {
    command=$1 number=$2 from=$3 slices=$4 edges=${5:-0} centres=${6:-0}
    last='' numbers='' name=''
    # (the slices of the slab below the last one can end where the volume does, too)
    [ $((number + 1)) -eq "$SLABS" ] && last=--last
    [ "$command" = write ] && numbers="--edges=$edges --centres=$centres $FORMAT" name=$number
    cd "$ROOM" || exit 1
    # (the words are split where they are blank)
    # shellcheck disable=SC2086
    {
        sed "s/^\(sizes:[[:space:]]*[0-9]*[[:space:]]*[0-9]*[[:space:]]*\)[0-9]*/\1$slices/" header
        dd if="$VOLUME" bs=64K iflag=skip_bytes,count_bytes skip=$((BEGIN + SLICE * from)) count=$((SLICE * slices)) status=none
    } | "$ISOSLAB" "$command" --level="$LEVEL" $PAD --from="$from" $last $numbers $name > "$number.$command" || {
        printf 'slabs.sh: slab %s, slices %s to %s: %s failed\n' "$number" "$from" $((from + slices - 1)) "$command" >&2
        exit 1
    }
    [ "$command" = count ] || : > "$number.written"
}

if [ "${1:-}" = --part ]; then
    shift
    part "$@"
    exit
fi

LEVEL='' PAD='' FORMAT=--format=ply jobs=$(nproc) slabs='' VOLUME='' mesh=''
for word in "$@"; do
    case $word in
        --level=*) LEVEL=${word#*=} ;;
        --pad=*) PAD=$word ;;
        --format=ply | --format=obj) FORMAT=$word ;;
        --jobs=*) jobs=${word#*=} ;;
        --slabs=*) slabs=${word#*=} ;;
        -*) usage ;;
        *) if [ -z "$VOLUME" ]; then VOLUME=$word; elif [ -z "$mesh" ]; then mesh=$word; else usage; fi ;;
    esac
done
if [ -z "$LEVEL" ] || [ -z "$mesh" ]; then usage; fi
slabs=${slabs:-$jobs}
case $jobs$slabs in *[!0-9]*) usage ;; esac
if [ "$jobs" -lt 1 ] || [ "$slabs" -lt 1 ]; then usage; fi
top=$(cd "$(dirname "$0")/.." && pwd)
if [ -z "${ISOSLAB:-}" ]; then
    ISOSLAB=$top/crates/isoslab/out/isoslab
    [ -x "$ISOSLAB" ] || ISOSLAB=isoslab
fi
found=$(command -v "$ISOSLAB") || fail "no program $ISOSLAB is found: build it by \`./run-it count --help\`, or set ISOSLAB to its path"
ISOSLAB=$(realpath -- "$found")
[ -f "$VOLUME" ] || fail "$VOLUME is no file"
[ ! -d "$mesh" ] || fail "$mesh is a folder"
VOLUME=$(realpath -- "$VOLUME")

# All that is made stands in one folder beside the mesh, which goes away however this ends.
ROOM=$(mktemp -d "$mesh.slabs.XXXXXX") || exit 1
ROOM=$(realpath -- "$ROOM")
joiner=''
trap '[ -z "$joiner" ] || kill "$joiner" 2> /dev/null; rm -rf "$ROOM"' EXIT
trap 'exit 1' HUP INT TERM

# The header, with the empty line behind it, and what it says. All else in it the program reads, and refuses if need be.
head -c 65537 "$VOLUME" | LC_ALL=C sed '/^\r\{0,1\}$/q' > "$ROOM/header"
BEGIN=$(wc -c < "$ROOM/header")
# (of a field that stands twice the first is taken here: the program refuses it)
encoding='' sizes='' type='' return=$(printf '\r')
while IFS=: read -r name value; do
    value=${value%"$return"}
    case $name in
        encoding) encoding=${encoding:-$value} ;;
        sizes) sizes=${sizes:-$value} ;;
        type) type=${type:-$value} ;;
    esac
done < "$ROOM/header"
# shellcheck disable=SC2086
set -- $encoding
[ "$*" = raw ] || fail "$VOLUME: no header of raw samples"
# shellcheck disable=SC2086
set -- $sizes
[ $# -eq 3 ] || fail "$VOLUME: not three sizes"
for size in "$@"; do
    # (a shell takes digits behind a 0 as octal ones)
    case $size in *[!0-9]* | 0* | ???????????*) fail "$VOLUME: a size is $size" ;; esac
done
nx=$1 ny=$2 NZ=$3
case $type in
    *8* | *char*) bytes=1 ;;
    *16* | *short*) bytes=2 ;;
    *32* | *int*) bytes=4 ;;
    *) fail "$VOLUME: no type of 8, 16 or 32 bits" ;;
esac
SLICE=$((nx * ny * bytes))

# A slab has two slices more than it owns, and with padding at most two layers; the program takes so many slices, and so many samples.
# The last slab has at least two slices.
ring=0
[ -n "$PAD" ] && ring=2
if [ "$nx" -gt $((1026 - ring)) ] || [ "$ny" -gt $((1026 - ring)) ]; then
    fail "$VOLUME: more than $((1026 - ring)) points along x or y"
fi
[ "$NZ" -ge 2 ] || fail "$VOLUME: one slice has no surface"
most=$((160000000 / ((nx + ring) * (ny + ring))))
[ "$most" -le 1026 ] || most=1026
most=$((most - 2 - ring))
needed=$(((NZ - 1 + most - 1) / most))
[ "$slabs" -ge "$needed" ] || slabs=$(((needed + jobs - 1) / jobs * jobs))
[ "$slabs" -le $((NZ - 1)) ] || slabs=$((NZ - 1))
number=0
while [ "$number" -lt "$slabs" ]; do
    from=$((number * (NZ - 1) / slabs)) next=$(((number + 1) * (NZ - 1) / slabs))
    if [ $((number + 1)) -lt "$slabs" ]; then end=$((next + 2)); else end=$NZ; fi
    printf '%s %s %s\n' "$number" "$from" $((end - from))
    number=$((number + 1))
done > "$ROOM/plan"

SLABS=$slabs
# The samples of a slab are one large block of memory, which glibc then asks for in large pages.
GLIBC_TUNABLES=${GLIBC_TUNABLES:-glibc.malloc.hugetlb=1}
export LEVEL PAD FORMAT VOLUME ROOM BEGIN SLICE SLABS ISOSLAB GLIBC_TUNABLES
run() {
    xargs -P "$jobs" -L 1 sh "$0" --part "$1" < "$2" || exit 1
}

# The counts of all slabs, by which each knows how many vertices stand before its own.
run count "$ROOM/plan"
all_edges=0 all_centres=0 all_triangles=0
while read -r number _; do
    read -r _ _ _ _ edges _ centres _ triangles < "$ROOM/$number.count" || fail "no counts of slab $number"
    all_edges=$((all_edges + edges)) all_centres=$((all_centres + centres)) all_triangles=$((all_triangles + triangles))
done < "$ROOM/plan"
before=0 centre=$all_edges
while read -r number from slices; do
    read -r _ _ _ _ edges _ centres _ < "$ROOM/$number.count"
    printf '%s %s %s %s %s\n' "$number" "$from" "$slices" "$before" "$centre"
    before=$((before + edges)) centre=$((centre + centres))
done < "$ROOM/plan" > "$ROOM/numbered"

# The mesh: a head, and all edges, all centres and all triangles, each slab's behind those of the one below. To copy them takes about
# as long as to write them, so it is done beside the writers. These make their files one behind the other, in this order, so that one
# is whole when there is the next. Each is removed when it is in the mesh, while the next is copied.
put_together() {
    if [ "$FORMAT" = --format=ply ]; then
        "$ISOSLAB" head $((all_edges + all_centres)) "$all_triangles" || exit 1
    fi
    for lines in edges:centres centres:triangles triangles:written; do
        while read -r number _; do
            until [ -e "$ROOM/$number.${lines#*:}" ]; do
                # (this ends, too, where the script was killed)
                kill -0 $$ 2> /dev/null || exit 1
                sleep 0.01
            done
            cat "$ROOM/$number.${lines%:*}" || exit 1
            rm -f "$ROOM/$number.${lines%:*}" &
        done < "$ROOM/plan"
    done
    wait
}
put_together >> "$ROOM/mesh" &
joiner=$!
run write "$ROOM/numbered"
wait "$joiner" || { joiner=''; exit 1; }
joiner=''
while read -r number _; do
    read -r counted < "$ROOM/$number.count"
    read -r written < "$ROOM/$number.write"
    [ "$counted" = "$written" ] || fail "$VOLUME was changed while it was read"
done < "$ROOM/plan"
mv -T -- "$ROOM/mesh" "$mesh" || exit 1
