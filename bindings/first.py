"""Judges a log from Python, and tells why the answer is no."""
import koo_toueg

LOG = b"sent,0,1,5\nreceived,1,0,1\nbegan,1,1,checkpoint\ntook,1,1,-\ndecided,1,1,commit\nclosed,1,1,-\n"
CERTIFICATES = b"cert,1,checkpoint,1,commit\nmember,1,1,0,-\n"

answer = koo_toueg.check(LOG, CERTIFICATES)
print(bool(answer), answer.why, answer.inst, answer.row)
print(koo_toueg.explain(LOG, CERTIFICATES).decode(), end="")
print(koo_toueg.judge(LOG))
try:
    koo_toueg.check(LOG + b"sent,0\n", CERTIFICATES)
except koo_toueg.Fault as fault:
    print("refused:", fault)
print(koo_toueg.merge([b"1,sent,0,1,5,m0.1\n", b"2,received,1,0,m0.1,-\n"]).decode(), end="")
