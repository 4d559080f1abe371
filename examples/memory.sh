#!/usr/bin/env bash
# memory.sh [BINARY]: lets each allocation of some runs fail in turn, the first, then the second, and so on, until a run has none left
# to fail: a script in order, the same over a store, and both live. Each run ends within a minute with status 0 or 8. A line may be
# answered as out of memory. All other replies are those of the script without such lines, or with status 8 a prefix of them; then the store opens, and
# has each edit that was acknowledged and nothing that the script did not do. BINARY is crates/emu/out/emu where it is not given. It
# needs a C compiler (`cc`, or what CC names), for a few lines that stand in front of the C library's allocator. The last line says how
# many runs were right; the status is 0 where all were.
here=$(realpath -- "$(dirname "$0")")
binary=$(realpath -- "${1:-$here/../crates/emu/out/emu}") && [ -x "$binary" ] || exit 2
room=$(mktemp -d) || exit 2
trap 'rm -rf "$room"' EXIT
cat >"$room/refuse.c" <<'C'
#include <errno.h>
#include <stdatomic.h>
#include <stddef.h>
#include <stdlib.h>
#include <unistd.h>

void *__libc_malloc(size_t), *__libc_calloc(size_t, size_t), *__libc_realloc(void *, size_t), *__libc_memalign(size_t, size_t);

static atomic_long calls;

/* Whether this call is the one of the number REFUSE, counted from 1; it is said on standard error. */
static int refused(void) {
    const char *number = getenv("REFUSE");
    if (!number || atomic_fetch_add(&calls, 1) + 1 != atol(number)) return 0;
    errno = ENOMEM;
    return write(2, "refused\n", 8) == 8;
}

void *malloc(size_t size) { return refused() ? NULL : __libc_malloc(size); }
void *calloc(size_t count, size_t size) { return refused() ? NULL : __libc_calloc(count, size); }
void *realloc(void *at, size_t size) { return refused() ? NULL : __libc_realloc(at, size); }
void *memalign(size_t align, size_t size) { return refused() ? NULL : __libc_memalign(align, size); }
void *aligned_alloc(size_t align, size_t size) { return memalign(align, size); }
int posix_memalign(void **at, size_t align, size_t size) {
    void *made = memalign(align, size);
    if (!made) return ENOMEM;
    *at = made;
    return 0;
}
C
"${CC:-cc}" -shared -fPIC -O1 -o "$room/refuse.so" "$room/refuse.c" || exit 2
{
    cat "$here/first-query.jsonl"
    echo '{"s":1,"do":"look","eql":"Phonetic == V"}'
    echo '{"s":1,"do":"set_label","session":"s1","bundle":"b1","id":1,"attribute":"Phonetic","value":"n"}'
    echo '{"s":1,"do":"finish"}'
    echo '{"s":1,"do":"query","eql":"Phonetic == n","requery":{"ref":"START","right":1}}'
    echo '{"s":1,"do":"undo","line":5}'
    echo '{"s":1,"do":"undo","line":8}'
    echo '{"s":1,"do":"query","eql":"Phonetic == n"}'
} >"$room/script"
mkdir "$room/again"
cd "$room" || exit 2
right=0
runs=0

# The script without the lines that were answered as out of memory, run where nothing fails: what it writes, and its history. An edit has
# another one in its place, which is always refused as UnknownLevel, since an undo may name its line. Its reply is taken out.
without_refused() {
    sed -n 's/^{"line":\([0-9]*\),"refused":{"rule":"Memory"}}$/\1/p' output | while read -r line; do
        echo "$line"'s/.*"do":"\(query\|look\|finish\)".*//'
        echo "$line"'s/..*/{"s":1,"do":"add_link_definition","definition":{"type":"ONE_TO_ONE","superlevelName":"None","sublevelName":"None"}}/'
    done >refused.sed
    sed -f refused.sed script >again/script
    (cd again && rm -f emu.store && "$binary" "$@" <script >all && grep -v '"rule":"UnknownLevel"}}$' all >wanted && : >history &&
        { [[ " $* " != *" --store "* ]] || "$binary" history >history; })
    grep -v '"refused":{"rule":"Memory"}}$' output >kept
    [ "$(tail -c 1 output | wc -l)" = 1 ] || truncate -s -1 kept
}

# Whether the store has a prefix of that history, and at least the edits that were acknowledged.
keeps() {
    "$binary" history >history 2>/dev/null
    status=$?
    if [ "$status" = 10 ]; then
        [ "$1" = 0 ]
    else
        [ "$status" = 0 ] && [ "$(wc -l <history)" -ge "$1" ] && cmp -s history <(head -n "$(wc -l <history)" again/history)
    fi
}

# each WORDS..: runs the script by these words, once for each allocation.
each() {
    for ((call = 1; ; call++)); do
        rm -f emu.store
        REFUSE=$call LD_PRELOAD=$room/refuse.so timeout 60 "$binary" "$@" <script >output 2>said
        status=$?
        grep -q refused said || break
        runs=$((runs + 1))
        acknowledged=$(grep -c '"ok":"\(add_bundle\|set_label\|undo\)"' output)
        without_refused "$@"
        if { [ "$status" = 0 ] && cmp -s again/wanted kept ||
            [ "$status" = 8 ] && cmp -s kept <(head -c "$(wc -c <kept)" again/wanted); } &&
            { [[ " $* " != *" --store "* ]] || keeps "$acknowledged"; }; then
            right=$((right + 1))
        else
            echo "$*: allocation $call: status $status, $acknowledged acknowledged"
        fi
    done
    echo "$*: $((call - 1)) allocations"
}

each run
each run --store
each live --workers 1
each live --store --workers 1
echo "$right of $runs"
[ "$runs" -gt 0 ] && [ "$right" = "$runs" ]
