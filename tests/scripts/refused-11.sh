# A server has 65,535 elections; the 65,536th is refused, and its leadership stays.
printf 'cluster 1 1\n'
yes 'elect 0' | head -n 65536
printf 'set 0 61 01\nelect 0\nget 0 61\n'
