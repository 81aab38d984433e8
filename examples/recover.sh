#!/usr/bin/env bash
# The story of a recovery over HTTP. Root leaves a switch for tests on at oauth, by which an intruder posts under another's name
# at askbot, which pastes the post at dpaste. An operator follows it through the logs, looks at what a cancellation would take with
# it, and cancels what let the intruder in; everybody else's posts stay, and he sees whom to write to. It prints what recover.out
# has, and ends with the program's status, or 1 where it comes to no end.
#
#   examples/recover.sh [PROGRAM]
#
# PROGRAM serves, else ./aire, which wants to be built (./aire build). The ports 8101 to 8103 have to be free.
. "$(dirname "${BASH_SOURCE[0]}")/story.sh"

start
echo "A day at three services. Root leaves a switch for tests on, and eve posts as ann, with a token that ann never had:"
send 8101 ann PUT /token/ann k1
send 8101 root PUT /cfg/debug on
send 8102 eve POST /post/ann/zz/q1 "Buy cheap pills"
send 8102 ann POST /post/ann/k1/q2 "How do I sleep?"
send 8102 bob GET /show/q1
rows

echo "An operator finds the paste, who posted it and who saw it, and why oauth took eve for ann:"
find_in_log dpaste /paste/q1
find_in_log askbot /q1
find_in_log oauth '/verify/ann/zz\|/cfg/debug'

echo "What would come of it at oauth, were the switch never set:"
ask oauth preview id=2 | indented

echo "It is cancelled, and the services make good what followed from it, until all is one legal execution:"
ask oauth cancel token=t1 id=2 | indented
await_legal
find_in_log askbot ''
rows

echo "Whom it concerned at askbot: what they were told, and what holds now:"
ask askbot changed | indented

echo "All stop, and each answer that was given has its one receipt:"
end
