# Draws the pictures of bench/plots.sh, which sets `folder` and `made`, from the files of its room.
set encoding utf8
set terminal svg size 900,500 font 'sans-serif,15' background rgb '#ffffff'
set border 3 linecolor rgb '#555555'
set tics nomirror out scale 0.6 textcolor rgb '#333333'
set grid linecolor rgb '#dddddd' linetype 1 linewidth 1
set lmargin 12
set tmargin 3
set bmargin 5
set label 1 made at screen 0.985, screen 0.025 right textcolor rgb '#777777' font 'sans-serif,11'
set style line 1 linecolor rgb '#0072b2' linewidth 4 pointtype 7 pointsize 0.9
set style line 2 linecolor rgb '#56b4e9' linewidth 3 pointtype 7 pointsize 0.8
set style line 3 linecolor rgb '#888888' linewidth 2 pointtype 5 pointsize 0.7
set style line 4 linecolor rgb '#009e73' linewidth 2 pointtype 9 pointsize 0.8
set style line 5 linecolor rgb '#e69f00' linewidth 2 pointtype 11 pointsize 0.8
set style line 6 linecolor rgb '#d55e00' linewidth 2 pointtype 11 pointsize 0.8
set style line 7 linecolor rgb '#cc79a7' linewidth 2 pointtype 13 pointsize 0.9

peers = 'run serve sqlite filter postgres_at_once postgres activemq'
styles = '1 2 4 3 5 6 7'
is_there(peer) = system(sprintf('test -s events-%s && echo 1 || echo 0', peer)) + 0
text(peer) = peer eq 'run' ? 'Justmeadow, run' : \
    peer eq 'serve' ? 'Justmeadow, serve' : \
    peer eq 'filter' ? 'plain filter in C' : \
    peer eq 'sqlite' ? 'SQLite, in memory' : \
    peer eq 'postgres' ? 'PostgreSQL, each event' : \
    peer eq 'postgres_at_once' ? 'PostgreSQL, all at once' : 'ActiveMQ selectors'
there = ''
lines = ''
do for [i = 1:words(peers)] {
    if (is_there(word(peers, i))) {
        there = there . ' ' . word(peers, i)
        lines = lines . ' ' . word(styles, i)
    }
}

set output folder . '/events.svg'
set title 'Events a second by subscriptions' font 'sans-serif,18'
set xlabel 'subscriptions like a market''s, each axis logarithmic'
set logscale xy
set xrange [90:110000]
set xtics ('100' 100, '1,000' 1000, '10,000' 10000, '100,000' 100000)
set ytics ('10' 10, '100' 100, '1,000' 1000, '10,000' 10000, '100,000' 100000, '1,000,000' 1000000)
set yrange [*:2000000]
set key outside right center vertical Left reverse samplen 2 spacing 1.5
plot for [i = 1:words(there)] 'events-' . word(there, i) using 1:2 with linespoints linestyle (word(lines, i) + 0) title text(word(there, i))

unset logscale
set rmargin 5
set key inside left top vertical Left reverse samplen 2 spacing 1.4
set ytics ('0' 0)
do for [thousands = 20:400:20] { set ytics add (sprintf('%d,000', thousands) thousands * 1000) }
set yrange [0:*]

set output folder . '/roundtrips.svg'
set title 'Round trips a second by connections' font 'sans-serif,18'
set xlabel 'connections to serve, with 10,000 subscriptions'
set xrange [0:17]
set xtics (1, 2, 4, 8, 16)
unset key
stats 'trips' using 2 nooutput
set yrange [0:1.06 * STATS_max]
plot 'trips' using 1:2 with linespoints linestyle 1

set output folder . '/memory.svg'
set title 'Memory by subscriptions, in MiB at most' font 'sans-serif,18'
set xlabel 'live subscriptions of 2.5 predicates'
set key inside left top vertical Left reverse samplen 2 spacing 1.4
set ytics autofreq
set xtics ('0' 0, '25,000' 25000, '50,000' 50000, '75,000' 75000, '100,000' 100000)
set xrange [0:*]
set datafile missing '-'
set yrange [0:*]
plot 'memory' using 1:3 with linespoints linestyle 2 title 'serve', '' using 1:2 with linespoints linestyle 1 title 'run'
set output
