#!/bin/sh
# Counts, in crates/*/src/*.rt, the places that docs/DESIGN-PASS.md speaks of, and says how many stand in each crate.
# usage: sh tools/count_forms.sh [-l]     (-l prints the lines too)
show() { # NAME PATTERN [EXCLUDE]
    lines=$(grep -nE "$2" crates/*/src/*.rt | { if [ -n "$3" ]; then grep -vE "$3"; else cat; fi; })
    total=$(printf '%s' "$lines" | grep -c .)
    each=$(printf '%s\n' "$lines" | sed -n 's#^crates/\([^/]*\)/.*#\1#p' | sort | uniq -c | awk '{printf "%s %s, ", $2, $1}')
    echo "$1: $total   ${each%, }"
    [ "$list" = 1 ] && printf '%s\n' "$lines" | sed 's/^/    /'
}
list=0; [ "$1" = -l ] && list=1
show "1a own enums"                              '^(pub )?enum '
show "1b refusals by bare number"                'refused\([0-9]+\)|Refused\([0-9]+\)|^        return (10|11|13|14|15|16|8);|number: (4|25),'
show "1c structs with a number, a reason or an answer" '^    (pub )?(number|reason|answer): u8'
show "1d flags and cases beside a value"         '^    pub (found|reach|done|go|more|keeps): ' 'u32'
show "1e tests of a number that says refused or nothing" '(number|reason|hops|length|key|last|weight|modulus|way|few|turns|end) (==|!=) 0|0 != .*number'
show "1f constants that number kinds"            '^(pub )?const [A-Z_]+: u(8|16) = [0-9]+;'
show "2a conversions by hand, one a type"        '^(pub )?fn (wide|wide16|wide32|wide64|long|broad|count|sum|long_word_at)\(x: |^fn sum\(|^fn long_word_at'
show "2b readers and writers of one width"       '^ *(pub )?fn (word_at|word64_at|word32_at|long_word_at|put_word|put_word32|put_count|put)\('
show "2c constants said twice"                   'const (FIRST|SECOND|SECOND_WAY|ENTRY|RECORD|ROUTE_HOPS|NODES|NOTE|SHORT|MOST_TILES): '
show "2d functions that differ in a case"        'fn (finds_quick|finds_short|next_quick|next_short|put_one|put_two|keep_one|keep_two|open_one|open_both|weigh|weigh_rows|agrees|row_meets|row_finds|hop_meets|hop_finds|mark_row|unmark_row|mark|clear|print_next|print_refused|room|words|report_room|smaller|larger|fewer)\('
show "3 loops that count by hand"                '^ *(while|loop)\b'
show "4a as"                                     ' as (u8|u16|u32|u64|usize)\b'
show "4b comparisons through .0"                 '\.0 (==|!=|<|<=) |(==|!=|<|<=) [a-z_]+(\.[a-z]+)*\.0' 'requires|ensures|ghost|×|≡|→'
show "4c structs spelled out to change a part"   '^    Streams \{|^        Streams \{'
show "4d printing by bytes"                      'io::(write_all|print_decimal|decimal)'
show "5a what is asked of a row at a place"      'requires.*(Whole|RowHere|RowStands|RowThere|RowPlaced) [a-z.]+now'
show "5b an image and a place in it"             'image: &.*\[u8\], *at: usize|^    at: usize,'
show "5c what is asked of an image"              'requires.*(LawfulImage|HeaderOf|ListRead|SiteRead)'
show "5d what is asked of a frame"               'head_length ≤ length frame'
show "5e ranges of a plan, a period, a route"    'requires.*(PlanInRange|Period [a-z]+\.0|hops ≤ most_route_hops)'
show "6 arrays with a length or a count beside"  '\[[a-z0-9_]+; [A-Za-z_:]+( \+ 1)?\]' 'const |ghost'
show "7 flags that choose a step"                'sent: bool|q\.opens|slow: bool|q\.second'
