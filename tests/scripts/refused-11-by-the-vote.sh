# Server 0 stands 65,535 times. Server 1 hears of the last election but one, server 2 of the last: server 1 may stand once more, under
# 65,535, and server 2, whose own number is 0, not at all. What is refused leaves server 0 its votes: it leads after line 196,611.
printf 'cluster 3 1\n'
yes 'elect 0
lose 0
lose 0' | head -n 196599
printf 'elect 0\ndeliver 0\nlose 0\nlose 0\nelect 0\ndeliver 1\nelect 1\nelect 2\nelect 1\nelect 0\ndeliver 1\nget 0 61\n'
