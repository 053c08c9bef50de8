# The ratios of ratios.txt as bars around 1: to the left we take less time than par2cmdline. Rows without a ratio are left
# out. Where we take more, the row says what bounds it.
set datafile separator "\t"
rows = "< grep -v '^[#-]' ratios.txt"
stats rows using 1 nooutput
count = STATS_records
longest = int(system("grep -v '^[#-]' ratios.txt | cut -f 4 | wc -L"))
set terminal svg size 660 + 6.2 * longest, 90 + 20 * count font "sans-serif,12" background "#ffffff"
set label "Time of each scene beside par2cmdline, both on one thread: 1/2 is half of its time" at screen 0.5, graph 1.06 center \
    font ",13" textcolor "#1f2328"
set tmargin 3
set logscale x 2
set xrange [(STATS_min < 0.06 ? STATS_min / 2.2 : 1.0 / 32):(STATS_max > 1.6 ? STATS_max * 2 : 3)]
set yrange [count - 0.3:-0.7]
set xtics ("1/128" 1.0 / 128, "1/64" 1.0 / 64, "1/32" 1.0 / 32, "1/16" 1.0 / 16, "1/8" 0.125, "1/4" 0.25, "1/2" 0.5, \
    "1" 1, "2" 2, "4" 4, "8" 8) font ",11" textcolor "#1f2328"
set grid xtics lc "#d8dee4" lw 1 dt 1
set border 1 lc "#6e7781"
set ytics scale 0 textcolor "#1f2328"
# (a character of the margin is wider than one of a label)
set lmargin 0.84 * longest
set rmargin 2
set key off
set style fill solid noborder
set arrow from 1, graph 0 to 1, graph 1 nohead lc "#1f2328" lw 1.2 front
ours(ratio) = ratio <= 1 ? 0x4f8a4f : 0xb35900
half = 0.36
plot rows using 1:0:(1):1:($0 - half):($0 + half):(ours($1)):ytic(4) with boxxyerror lc rgb variable, \
     "" using ($1 <= 1 ? $1 / 1.06 : NaN):0:(strcol(1)) with labels right font ",11" textcolor "#1f2328", \
     "" using ($1 > 1 ? $1 * 1.06 : NaN):0:(strcol(1)) with labels left font ",11" textcolor "#1f2328", \
     "" using ($1 > 1 ? 0.95 : NaN):0:(strcol(5)) with labels right font ",11" textcolor "#b35900"
