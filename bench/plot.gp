# The part of the single defines of a fill that took at least a time, for both works.
set terminal svg size 960,520 dynamic background rgb 'white' font 'sans-serif,13'
set output out
set logscale xy
set format xy '10^{%L}'
set grid back lc rgb '#dddddd'
set xlabel 'nanoseconds'
set ylabel 'part of the defines that took at least as long'
set yrange [2e-5:1.3]
set xrange [30:1e6]
set key bottom left noenhanced samplen 2 spacing 0.9
set multiplot layout 1,2
names = "'this store' 'the limit' 'std::unordered_map' 'absl::flat_hash_map' 'libcuckoo' 'uthash' 'Rust HashMap'"
colours = "#d62728 #999999 #1f77b4 #2ca02c #9467bd #8c564b #ff7f0e"
width(k) = k == 0 ? 3 : 1.5
titles = "'a: 1,800 rail keys' 'b: 29,491 random keys'"
do for [w = 1:2] {
    set title word(titles, w)
    plot for [k = 0:6] data.'/'.word("a b", w).k.'.points' using 1:2 with lines lw width(k) lc rgb word(colours, k + 1) title word(names, k + 1)
    unset key
}
unset multiplot
