# shellcheck shell=sh
# The texts that dev/bench/run and dev/bench/worst measure the program on: each function writes one.

# a plain block of n vertices and m different edges: a ring, and then chords with shifts
block() {
    awk -v n="$1" -v m="$2" 'BEGIN {
        print "PERIODIC_GRAPH"; print "NAME bench"; print "EDGES"
        for (k = 1; k <= n && k <= m; k++) print k, k % n + 1, (k % n == 0), 0, 0
        for (i = n; i < m; i++) print i % n + 1, (i * 7 + int(i / n)) % n + 1, 1 + i % 499, int(i / n) % 499, 1
        print "END"
    }'
}

# a ring of n vertices, each with two loops: its positions have the denominator n
ring() {
    awk -v n="$1" 'BEGIN {
        print "PERIODIC_GRAPH"; print "NAME ring"; print "EDGES"
        for (k = 1; k <= n; k++) print k, k % n + 1, (k == n), 0, 0
        for (k = 1; k <= n; k++) { print k, k, 0, 1, 0; print k, k, 0, 0, 1 }
        print "END"
    }'
}

# the same, and a loop more at the first vertex: so many classes as vertices
marked_ring() {
    ring "$1" | sed 's/^END$/1 1 0 1 1\nEND/'
}

# a vertex with a loop in one direction and n others: some 4n^2 frames
star() {
    awk -v n="$1" 'BEGIN {
        print "PERIODIC_GRAPH"; print "NAME star"; print "EDGES"; print 1, 1, 0, 1
        for (k = 0; k < n; k++) print 1, 1, 1, k - int(n / 2)
        print "END"
    }'
}

# a graph of n vertices with some 16 arcs at each, chosen by a fixed sequence: its placement is past the limits
dense() {
    awk -v n="$1" 'BEGIN {
        print "PERIODIC_GRAPH"; print "NAME dense"; print "EDGES"
        for (k = 1; k <= n; k++) print k, k % n + 1, (k == n), 0, 0
        print 1, 1, 0, 1, 0; print 1, 1, 0, 0, 1
        seed = 1
        for (i = 0; i < 7 * n - 2; i++) {
            seed = (seed * 16807) % 2147483647; u = seed % n + 1
            seed = (seed * 16807) % 2147483647; v = seed % n + 1
            if (u != v) print u, v, i % 5 - 2, int(i / 5) % 5 - 2, int(i / 25) % 5 - 2
        }
        print "END"
    }'
}

# a ring of n vertices with four arcs each in dimension 2, and a loop more at the first: so many classes as vertices
marked_strip() {
    awk -v n="$1" 'BEGIN {
        print "PERIODIC_GRAPH"; print "NAME strip"; print "EDGES"
        for (k = 1; k <= n; k++) { print k, k % n + 1, (k == n), 0; print k, k, 0, 1 }
        print 1, 1, 1, 1
        print "END"
    }'
}

# the diamond net in a cell of a*b*c usual ones
diamond() {
    awk -v a="$1" -v b="$2" -v c="$3" 'BEGIN {
        print "PERIODIC_GRAPH"; print "NAME dia"; print "EDGES"
        for (x = 0; x < a; x++) for (y = 0; y < b; y++) for (z = 0; z < c; z++) {
            first = 2 * (x + a * (y + b * z)) + 1
            print first, first + 1, 0, 0, 0
            print first, 2 * ((x + 1) % a + a * (y + b * z)) + 2, (x + 1 == a), 0, 0
            print first, 2 * (x + a * ((y + 1) % b + b * z)) + 2, 0, (y + 1 == b), 0
            print first, 2 * (x + a * (y + b * ((z + 1) % c))) + 2, 0, 0, (z + 1 == c)
        }
        print "END"
    }'
}

# n vertices with two loops each: so many parts as vertices
loops() {
    awk -v n="$1" 'BEGIN {
        print "PERIODIC_GRAPH"; print "NAME loops"; print "EDGES"
        for (k = 1; k <= n; k++) { print k, k, 1, 0; print k, k, 0, 1 }
        print "END"
    }'
}

# a text of n small nets, with so many rows each; after the sixth they repeat edges
nets() {
    awk -v n="$1" -v rows="$2" 'BEGIN {
        for (k = 1; k <= n; k++) {
            print "PERIODIC_GRAPH"; print "NAME net" k; print "EDGES"
            for (i = 0; i < rows; i++) print i % 2 + 1, (i + 1) % 2 + 1, i % 3, (i + 1) % 3, int((i % 6) / 3)
            print "END"
        }
    }'
}

# n lattices, each with one more loop, so that no two are one net; from number k on, as blocks or as key lines
lattices() {
    awk -v n="$1" -v first="$2" -v form="$3" 'BEGIN {
        for (k = first; k < first + n; k++) {
            more = (1 + k % 13) " " (14 + int(k / 13) % 13) " " (28 + int(k / 169))
            if (form == "blocks") {
                print "PERIODIC_GRAPH"; print "NAME net" k; print "EDGES"
                print 1, 1, 1, 0, 0; print 1, 1, 0, 1, 0; print 1, 1, 0, 0, 1; print 1, 1, more
                print "END"
            } else {
                print "key 3 1 1 1 0 0 1 1 0 1 0 1 1 0 0 1 1 1", more; print "  id net" k; print "end"
            }
        }
    }'
}

# the cubic net carried to itself, as a map of period m that is written down
cubic_map() {
    awk -v m="$1" 'BEGIN {
        net = "graph 3 1 3\nedge 1 1 0 0 1\nedge 1 1 0 1 0\nedge 1 1 1 0 0"
        print "net_maps 1"; print net; print "pair 2 map"; print net; print "period", m
        for (x = 0; x < m; x++) for (y = 0; y < m; y++) for (z = 0; z < m; z++) print "image 1", x, y, z, 1, x, y, z
        print "base", m, 0, 0; print "base", 0, m, 0; print "base", 0, 0, m; print "end"
    }'
}

# a text of n blocks of some 1,000 bytes, each one vertex with 88 loops: 4.8 million frames
stars() {
    awk -v n="$1" 'BEGIN {
        for (k = 0; k < n; k++) {
            print "PERIODIC_GRAPH"; print "NAME s" k; print "EDGES"
            for (i = 0; i < 88; i++) { v = 1 + (i + k) % 124; print 1, 1, int(v / 25), int(v / 5) % 5, v % 5 }
            print "END"
        }
    }'
}

# the same, where no three loops are a basis: the least scale of a frame is 2
scaled_stars() {
    awk -v n="$1" 'BEGIN {
        for (k = 0; k < n; k++) {
            print "PERIODIC_GRAPH"; print "NAME t" k; print "EDGES"; print "1 1 3 0 0"; print "1 1 2 0 0"
            for (i = 0; i < 86; i++) {
                place = 6 * int((i + 3 * k) / 3 / 2 + 0.5)
                print 1, 1, (int((i + 3 * k) / 3) % 2 ? -place : place), (i % 3 > 0), (i % 3 != 1)
            }
            print "END"
        }
    }'
}

# the same with 90 loops, of which many lie in a plane with two others: the least scale of a frame is 6
wide_stars() {
    awk -v n="$1" 'BEGIN {
        for (k = 0; k < n; k++) {
            print "PERIODIC_GRAPH"; print "NAME w" k; print "EDGES"
            print "1 1 6 0 0"; print "1 1 10 0 0"; print "1 1 15 0 0"
            for (x = 0; x < 4; x++) for (y = -2; y < 3; y++) for (z = -2; z < 3; z++)
                if (x > 0 || y > 0 || (y == 0 && z > 0)) print 1, 1, 30 * x, y, z
            print "END"
        }
    }'
}

# n blocks of two vertices with 58 loops each: nothing that is spared with one class is spared here
two_stars() {
    awk -v n="$1" 'BEGIN {
        for (k = 0; k < n; k++) {
            print "PERIODIC_GRAPH"; print "NAME v" k; print "EDGES"; print "1 1 3 0 0"; print "1 2 0 0 0"; print "1 2 0 0 1"
            for (v = 1; v < 3; v++) {
                left = 56 + v
                for (x = 0; x < 3; x++) for (y = -2; y < 3; y++) for (z = -2; z < 3; z++)
                    if (left > 0 && (x > 0 || y > 0 || (y == 0 && z > 0))) { print v, v, 2 * x, y, z; left-- }
            }
            print "END"
        }
    }'
}

# one block of 46 parts, each such a vertex
parted_stars() {
    awk -v n="$1" 'BEGIN {
        print "PERIODIC_GRAPH"; print "NAME parts"; print "EDGES"
        for (k = 1; k <= n; k++)
            for (i = 0; i < 88; i++) { v = 1 + (i + k) % 124; print k, k, int(v / 25), int(v / 5) % 5, v % 5 }
        print "END"
    }'
}

# a vertex with 4,095 loops carried to itself, as a map of period m: each loop is carried along each cell
star_map() {
    awk -v m="$1" 'BEGIN {
        net = "graph 3 1 4095"
        for (v = 1; v < 4096; v++) net = net "\nedge 1 1 " int(v / 256) " " int(v / 16) % 16 " " v % 16
        print "net_maps 1"; print net; print "pair 2 map"; print net; print "period", m
        for (x = 0; x < m; x++) for (y = 0; y < m; y++) for (z = 0; z < m; z++) print "image 1", x, y, z, 1, x, y, z
        print "base", m, 0, 0; print "base", 0, m, 0; print "base", 0, 0, m; print "end"
    }'
}
