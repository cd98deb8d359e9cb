"""net_tool desk: structures and nets on a page of one's own machine.

The server has no state: a file, a block or two go to it, and an answer comes back. All work on them is done in
processes of their own, with limits of time and memory.

command      the words of the command line, the server's beginning and its clean end
application  the addresses of the page, with Flask
guard        who may ask: the token, Host and Origin; the headers of each answer
connections  which connections are open, and how long they may be
service      the server itself
worker       processes with limits, one for each question, and what became of them
warm         what these processes share: the modules and the archives, loaded once
archives     the archives by their files, each with its names or the reason why it is not read
questions    what is asked: the nets of a file, the card of a net, a pair of nets, a crystal
files        from a file to its nets
zips         the files of a ZIP archive
rows         what the table tells of nets
cards        what is reported and drawn of a net
listed       what databases list of a net, when it is asked for
beyond       names of a net without a key, by verified maps
atoms        the structure beside its net
colours      the colours of elements
pairs        whether two nets are the same, or what differs first
woven        interpenetrating nets in one picture, each copy in a colour
reasons      why there is no key, in a chemist's words, and what to do

The folder page has the page itself; it shares pictures/viewer.js with the pages of net_tool draw."""
