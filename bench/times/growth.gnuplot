# Draws the table of growth.py, a panel for each part that grows; programs is how many were timed:
# gnuplot -e "table='growth.txt'; programs=4" growth.gnuplot > growth.svg
set terminal svg size 1000, 900 font "sans-serif, 12" background rgb "white"
stats table nooutput
set logscale xy
set xrange [60:30000]
set yrange [0.002:20]
set format x "10^{%T}"
set grid
set key top left samplen 2
array titles[4] = ["cubes, from the front", "bars across bars, from above", "a cube in squares, along (1, -1, 1)", "the pillow block, refined, from the front"]
set multiplot layout 2, 2 title "seconds of the processor, one view, whole process, over the number of triangles"
do for [panel = 0:STATS_blocks / programs - 1] {
    set title titles[panel + 1]
    plot for [i = 0:programs - 1] table index panel * programs + i using 1:2 with linespoints linewidth 1.5 pointsize 0.6 title columnheader(1)
}
unset multiplot
