% SWI-Prolog is asked who is authoritative, in three ways: with tables that are emptied before each question (`tabled`), with
% tables that are kept (`again`), and by a walk without tables (`walk`). README.md says what is read and printed. The emptying
% is counted: without it the next question would not be walked.

:- set_prolog_flag(optimise, true).
:- use_module(library(apply)).
:- use_module(library(readutil)).
:- initialization(main, main).
:- dynamic root/2, supertag/2, link/2, tag_link/3, ask/2.

% counted(T, P): P is a counted node of the tag's own graph.
% holds(T, P): P acts for a counted node of T or of its supertag.
:- table counted/2, holds/2.

counted(T, P) :- root(T, P).
counted(T, P) :- counted(T, Q), tag_link(T, Q, P).

holds(T, P) :- counted(T, P).
holds(T, P) :- supertag(T, S), counted(S, P).
holds(T, P) :- holds(T, Q), link(Q, P).

% For a fresh question one table a tag is the quickest; for one that comes again, a table of its own.
tabled(T, P) :- holds(T, Q), Q == P, !.

% The counted nodes as bits of a number, and the way back from P until one of them is met.
walk(T, P) :-
    nodes(T, Nodes),
    back([P], 0, Nodes).

nodes(T, Nodes) :-
    own_nodes(T, Own),
    (   supertag(T, S)
    ->  own_nodes(S, Above),
        Nodes is Own \/ Above
    ;   Nodes = Own
    ).

own_nodes(T, Nodes) :-
    root(T, R),
    led_to([R], T, 0, Nodes).

led_to([], _, Seen, Seen).
led_to([P|Rest], T, Seen, Nodes) :-
    Bit is 1 << P,
    (   Seen /\ Bit =\= 0
    ->  led_to(Rest, T, Seen, Nodes)
    ;   Now is Seen \/ Bit,
        findall(Q, tag_link(T, P, Q), More, Rest),
        led_to(More, T, Now, Nodes)
    ).

back([P|Rest], Seen, Nodes) :-
    Bit is 1 << P,
    (   Nodes /\ Bit =\= 0
    ->  true
    ;   Seen /\ Bit =\= 0
    ->  back(Rest, Seen, Nodes)
    ;   Now is Seen \/ Bit,
        findall(Q, link(Q, P), More, Rest),
        back(More, Now, Nodes)
    ).

% A question in each way, answered 1 or 0.
answer(tabled, T, P, Yes) :- abolish_all_tables, yes(tabled(T, P), Yes).
answer(again, T, P, Yes) :- yes(holds(T, P), Yes).
answer(walk, T, P, Yes) :- yes(walk(T, P), Yes).

:- meta_predicate yes(0, -).
yes(Goal, Yes) :- ( call(Goal) -> Yes = 1 ; Yes = 0 ).

load(File) :-
    read_file_to_string(File, Text, []),
    split_string(Text, "\n", "", Lines),
    forall(( member(Line, Lines), Line \== "" ), take(Line)).

take(Line) :-
    split_string(Line, " ", "", [Kind|Words]),
    maplist([Word, Number]>>number_string(Number, Word), Words, Numbers),
    fact(Kind, Numbers).

fact("supertag", [T, R]) :- assertz(root(T, R)).
fact("subtag", [T, R, S]) :- assertz(root(T, R)), assertz(supertag(T, S)).
fact("link", [P, Q]) :- assertz(link(P, Q)).
fact("tag_link", [T, P, Q]) :- assertz(tag_link(T, P, Q)).
fact("ask", [T, P]) :- assertz(ask(T, P)).

% All questions so many times: how long that took, and how many were answered yes.
took(Way, Times, Nanoseconds, Yes) :-
    Count = yes(0),
    get_time(Before),
    (   between(1, Times, _),
        ask(T, P),
        answer(Way, T, P, One),
        arg(1, Count, Old),
        New is Old + One,
        nb_setarg(1, Count, New),
        fail
    ;   true
    ),
    get_time(After),
    Nanoseconds is (After - Before) * 1.0e9,
    arg(1, Count, Yes).

enough(Way, Least, Times, Enough) :-
    took(Way, Times, Nanoseconds, _),
    (   Nanoseconds >= Least
    ->  Enough = Times
    ;   More is 2 * Times,
        enough(Way, Least, More, Enough)
    ).

measure(Rounds, Least, Way) :-
    findall(Yes, ( ask(T, P), answer(Way, T, P, Yes) ), Answers),
    atomic_list_concat(Answers, Told),
    format("answers ~w ~w~n", [Way, Told]),
    length(Answers, Count),
    enough(Way, Least, 1, Times),
    Asked is Times * Count,
    forall(between(1, Rounds, _),
           ( took(Way, Times, Nanoseconds, Yes),
             format("round ~w ~0f ~w ~w~n", [Way, Nanoseconds, Asked, Yes]) )).

main :-
    current_prolog_flag(argv, [File, Rounds, Milliseconds]),
    load(File),
    atom_number(Rounds, Number),
    atom_number(Milliseconds, Most),
    Least is Most * 1.0e6,
    current_prolog_flag(version, Version),
    Major is Version // 10000,
    Minor is Version // 100 mod 100,
    Patch is Version mod 100,
    format("version SWI-Prolog ~w.~w.~w~n", [Major, Minor, Patch]),
    maplist(measure(Number, Least), [tabled, again, walk]).
