# How the time of create, verify and repair grows with the set: growth.txt as three drawings side by side.
set terminal svg size 900, 350 font "sans-serif,12" background "#ffffff"
set datafile separator "\t"
set datafile missing "-"
set logscale xy
set yrange [5:2000000]
set ytics ("10 ms" 10, "0.1 s" 100, "1 s" 1000, "10 s" 10000, "100 s" 100000) textcolor "#1f2328"
set xtics textcolor "#1f2328" rotate by -40 font ",10"
set grid xtics ytics lc "#d8dee4" lw 1 dt 1
set border 3 lc "#6e7781"
set tics nomirror
set key top left Left reverse textcolor "#1f2328"
set style line 1 lc rgb "#2a6f2a" lw 2 pt 7 ps 0.6
set style line 2 lc rgb "#b35900" lw 2 pt 5 ps 0.6 dt 2
set label 1 "slices of 4 KiB × recovery slices" at screen 0.5, screen 0.05 center textcolor "#1f2328"
set tmargin at screen 0.88
set bmargin at screen 0.27
commands = "create verify repair"
set multiplot
do for [k = 1:3] {
    set title word(commands, k) font ",13" offset 0, -0.5 textcolor "#1f2328"
    set lmargin at screen 0.075 + 0.315 * (k - 1)
    set rmargin at screen 0.075 + 0.315 * (k - 1) + 0.27
    plot "growth.txt" using ($1 * $2):(column(2 * k + 1)):xtic(sprintf("%d×%d", $1, $2)) with linespoints ls 1 title "par2", \
         "" using ($1 * $2):(column(2 * k + 2)) with linespoints ls 2 title "par2cmdline"
    unset label 1
}
unset multiplot
