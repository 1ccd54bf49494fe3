% All matchers of f(x*, a, y*, b, z*) on a b a b .., as they are written in Prolog. Prints lines: arguments, matchers, milliseconds.
% What is timed goes through all of them and keeps none, the cheapest that can be had here; they are counted before.
:- use_module(library(lists)).
:- use_module(library(aggregate)).

matcher(List, X, Y, Z) :- append(X, [a|Rest], List), append(Y, [b|Z], Rest).

alternating(0, []) :- !.
alternating(N, [a, b|List]) :- M is N - 2, alternating(M, List).

seconds(Times, List, Seconds) :-
    statistics(cputime, From),
    ( between(1, Times, _), matcher(List, _, _, _), fail ; true ),
    statistics(cputime, To),
    Seconds is To - From.

% The middle of five turns.
milliseconds(Times, List, Milliseconds) :-
    findall(S, (between(1, 5, _), seconds(Times, List, S)), Turns),
    msort(Turns, [_, _, Middle|_]),
    Milliseconds is Middle * 1000 / Times.

line(Arguments, Times) :-
    alternating(Arguments, List),
    aggregate_all(count, matcher(List, _, _, _), Matchers),
    milliseconds(Times, List, Milliseconds),
    format("~d ~d ~6f~n", [Arguments, Matchers, Milliseconds]).

main :- line(50, 400), line(100, 100), line(200, 25).
