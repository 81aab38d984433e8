#!/usr/bin/env bash
# The story of a bug that is corrected for the past, over HTTP. oauth takes any token while a switch for tests is on, and root left it on.
# Nobody knows who used that, and nobody looks for them: an operator rehearses a program in which the switch is passed over, and has
# it stand in the place of the one that was there. What the switch let through goes, over three services, and everybody else's posts
# stay. It prints what correct.out has, and ends with the program's status, or 1 where it comes to no end.
#
#   examples/correct.sh [PROGRAM]
#
# PROGRAM serves, else ./aire, which wants to be built (./aire build). The ports 8101 to 8103 have to be free.
. "$(dirname "${BASH_SOURCE[0]}")/story.sh"
corrected=$top/examples/oauth.program

# Which programs a service's requests are under, without their texts.
programs() { ask "$1" programs | sed -n 's/ route .*//; /^program/p' | indented; }

start
echo "A day at three services. Root leaves a switch for tests on, and somebody finds that out:"
send 8101 ann PUT /token/ann k1
send 8101 root PUT /cfg/debug on
send 8102 eve POST /post/ann/zz/q1 "Buy cheap pills"
send 8102 ann POST /post/ann/k1/q2 "How do I sleep?"
send 8102 bob GET /show/q1
send 8102 bob GET /show/q2
rows

echo "Months later the bug is found: oauth passes whoever comes while the switch is on. All its requests are under one program:"
programs oauth

echo "What would come of it at oauth, had that program always passed over the switch:"
ask oauth rehearse number=1 program="$corrected" | indented

echo "It is corrected, and the services make good what followed from it, until all is one legal execution:"
ask oauth correct token=t1 number=1 program="$corrected" | indented
await_legal
programs oauth
find_in_log oauth ''
find_in_log askbot ''
find_in_log dpaste ''
rows

echo "The switch is still on, and nobody comes in by it any more:"
send 8102 eve POST /post/ann/zz/q3 "More pills"
send 8102 ann POST /post/ann/k1/q4 "Better now."

echo "All stop, and each answer that was given has its one receipt:"
end
