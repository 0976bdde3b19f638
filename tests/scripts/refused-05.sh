# A million accepted lines that print nothing: one vote comes again and again.
printf 'cluster 2 1\nelect 0\ndeliver 0\n'
yes 'copy 0' | head -n 999998
printf 'elect 0\ndeliver 0\nlose 9\nnonsense\ncluster 2 1\nelect 2\nget 0 -\nstop 0\nstart 0\nstart 2\ncut 0 0\ncut 9 0\n'
