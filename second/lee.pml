/* Lee's queue for SPIN: the step table line by line, under every schedule of a few operations. second/spin runs it.
 *
 * The sizes L, Q, N (up to 254 nodes) and the operations come as definitions: COUNT, and for each what it is, its
 * level, queue and node, as the lists OP (1 enqueue, 2 dequeue), LEVEL, QUEUE and NODE (0 for a dequeue). */

mtype = { E1, E2, E3, E4, E5, E6, E7, E8, E9, E10, E11, E12, E13, E14, E15, E16, E17, E18, E19, E20, E21, E22, E23,
          E24, E25, E26, E27, E28, E29, D1, D2, D3, D4, D5, D6, D7 };

typedef Frame { byte op; mtype point; byte q, n, k, p, c, a, r, m };

byte LN[L], LQ[L], head[Q + 1], tail[Q + 1], next[N + 1], use[N + 1];
Frame frame[L];

byte its_op[COUNT] = { OP };
byte its_level[COUNT] = { LEVEL };
byte its_queue[COUNT] = { QUEUE };
byte its_node[COUNT] = { NODE };
byte begun;                 /* how many have begun */
byte returned[COUNT], ends; /* what the dequeues returned, in the order of their ends */

byte top;                   /* 1 + the highest level that runs, or 0 */
bool accepted;              /* whether the next operation may begin */

hidden byte i, x; /* used within a move only, and no part of the state */

#define l (top - 1)
#define f frame[l]
#define BELOW(k, none, more) if :: f.k == 0 -> f.point = none :: else -> f.k--; f.point = more fi
#define IS_NODE(c) assert(1 <= c && c <= N) /* refusal 10 never comes */
#define WALK(then) IS_NODE(f.c); x = next[f.c]; if :: x != 0 -> f.c = x :: else -> f.point = then fi
#define STORE(c, value) IS_NODE(c); next[c] = value

inline clear()
{
    f.op = 0; f.point = 0; f.q = 0; f.n = 0; f.k = 0; f.p = 0; f.c = 0; f.a = 0; f.r = 0; f.m = 0
}

inline return_node(node)
{
    returned[ends] = node; ends++; clear()
}

inline step()
{
    if
    :: f.point == E1 -> LN[l] = f.n; f.point = E2
    :: f.point == E2 -> LQ[l] = f.q; f.k = l; BELOW(k, E7, E3)
    :: f.point == E3 -> if :: LQ[f.k] == f.q -> f.point = E4 :: else -> BELOW(k, E7, E3) fi
    :: f.point == E4 -> f.p = LN[f.k]; f.point = E5
    :: f.point == E5 -> if :: tail[f.q] == f.p -> f.point = E6 :: else -> f.m = f.k; BELOW(m, E15, E13) fi
    :: f.point == E6 -> LQ[f.k] = 0; BELOW(k, E7, E3)
    :: f.point == E7 -> f.c = tail[f.q]; f.point = E8
    :: f.point == E8 -> WALK(E9)
    :: f.point == E9 -> STORE(f.c, f.n); f.c = f.n; f.point = E10
    :: f.point == E10 -> WALK(E11)
    :: f.point == E11 -> LN[l] = f.c; f.point = E12
    :: f.point == E12 -> tail[f.q] = f.c; f.point = E28
    :: f.point == E13 -> if :: LQ[f.m] == f.q -> f.point = E14 :: else -> BELOW(m, E15, E13) fi
    :: f.point == E14 -> f.c = LN[f.m]; if :: f.c == 0 -> BELOW(m, E15, E13) :: else -> f.point = E16 fi
    :: f.point == E15 -> f.c = tail[f.q]; f.m = L; f.point = E16
    :: f.point == E16 -> IS_NODE(f.c); x = next[f.c];
        if
        :: x == f.p -> f.a = f.c; f.point = E21
        :: x != f.p && x != 0 -> f.c = x
        :: x != f.p && x == 0 -> if :: f.m == L -> f.point = E17 :: else -> BELOW(m, E15, E13) fi
        fi
    :: f.point == E17 -> IS_NODE(f.p); f.r = next[f.p]; f.point = E18
    :: f.point == E18 -> STORE(f.p, f.n); f.c = f.n; f.point = E19
    :: f.point == E19 -> WALK(E20)
    :: f.point == E20 -> STORE(f.c, f.r); f.point = E28
    :: f.point == E21 -> IS_NODE(f.a); f.r = next[f.a]; f.point = E22
    :: f.point == E22 -> STORE(f.a, f.n); f.c = f.n; f.point = E23
    :: f.point == E23 -> WALK(E24)
    :: f.point == E24 -> STORE(f.c, f.r); f.point = E25
    :: f.point == E25 -> if :: tail[f.q] == f.a -> f.point = E26 :: else -> f.point = E28 fi
    :: f.point == E26 -> LN[l] = f.c; f.point = E27
    :: f.point == E27 -> tail[f.q] = f.c; f.point = E28
    :: f.point == E28 -> LQ[l] = 0; f.point = E29
    :: f.point == E29 -> LN[l] = 0; if :: f.op == 1 -> clear() :: else -> f.point = D1 fi
    :: f.point == D1 -> f.c = head[f.q]; f.point = D2
    :: f.point == D2 -> if :: tail[f.q] == f.c -> return_node(0) :: else -> f.point = D3 fi
    :: f.point == D3 -> IS_NODE(f.c); if :: next[f.c] == 0 -> return_node(0) :: else -> f.point = D4 fi
    :: f.point == D4 -> IS_NODE(f.c); f.r = next[f.c]; f.point = D5
    :: f.point == D5 -> head[f.q] = f.r; if :: f.c == f.q -> f.point = D6 :: else -> f.point = D7 fi
    :: f.point == D6 -> STORE(f.c, 0); f.n = f.q; f.point = E1
    :: f.point == D7 -> STORE(f.c, 0); use[f.c] = 0; return_node(f.c)
    fi
}

inline begin()
{
    top = its_level[begun] + 1;
    f.op = its_op[begun]; f.q = its_queue[begun]; f.n = its_node[begun];
    if
    :: f.op == 1 -> f.point = E1; use[f.n] = f.q
    :: else -> f.point = D1
    fi;
    begun++
}

/* After a move: what runs, and whether the next operation may begin, by the refusals 3 to 8. */
inline look()
{
    top = 0; accepted = begun < COUNT;
    for (i : 0 .. L - 1) {
        if
        :: frame[i].op != 0 ->
            top = i + 1;
            if
            :: accepted && frame[i].op == 2 && its_op[begun] == 2 && frame[i].q == its_queue[begun] -> accepted = false
            :: else
            fi
        :: else
        fi
    }
    if
    :: accepted ->
        accepted = top <= its_level[begun] && its_level[begun] < L && 1 <= its_queue[begun] && its_queue[begun] <= Q;
        if
        :: accepted && its_op[begun] == 1 ->
            accepted = Q < its_node[begun] && its_node[begun] <= N;
            if :: accepted -> accepted = use[its_node[begun]] == 0 :: else fi
        :: else
        fi
    :: else
    fi
}

/* A line for each state in which all is over: a state is met once. */
inline tell()
{
    printf("over returned");
    x = 0; do :: x < ends -> printf(" %d", returned[x]); x++ :: else -> break od;
    printf(" head"); for (i : 1 .. Q) { printf(" %d", head[i]) }
    printf(" tail"); for (i : 1 .. Q) { printf(" %d", tail[i]) }
    printf(" next"); for (i : 1 .. N) { printf(" %d", next[i]) }
    printf(" use"); for (i : 1 .. N) { printf(" %d", use[i]) }
    printf("\n")
}

active proctype bench()
{
    d_step { for (i : 1 .. Q) { head[i] = i; tail[i] = i } look() }
    do
    :: d_step { top != 0 -> step(); look() }
    :: d_step { accepted -> begin(); look() }
    :: d_step { begun == COUNT && top == 0 -> tell(); begun++ }
    :: begun > COUNT -> break
    od
}
