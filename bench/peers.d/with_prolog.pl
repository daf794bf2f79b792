% SWI-Prolog as a peer: with_prolog.pl answers|times PROGRAM.. asks decide/0 of each program, every time from empty tables.
% Prints the program's name and yes or no; or the name, nanoseconds of the quickest and of the middle one of many calls, and how many.
:- initialization(main, main).

warm(0.2).
long_enough(0.3).
fewest(21).
most(2001).

main([Mode|Programs]) :- forall(member(Program, Programs), one(Mode, Program)).

one(Mode, Program) :-
    file_base_name(Program, Base),
    file_name_extension(Name, _, Base),
    load_files(Program, [silent(true)]),
    call(Mode, Said),
    atomic_list_concat([Name|Said], ',', Line),
    writeln(Line),
    unload_file(Program).

ask(Answer) :- ( decide -> Answer = yes ; Answer = no ).

answers([Answer]) :- abolish_all_tables, ask(Answer).

% emptying the tables is left out of the time, in Prolog's favour; all that fills them is in it
clocked(Took) :-
    abolish_all_tables,
    statistics(cputime, From),
    ask(_),
    statistics(cputime, To),
    Took is To - From.

times([Best, Middle, Calls]) :-
    warm(Warm),
    statistics(cputime, Begun),
    Until is Begun + Warm,
    warm_up(Until),
    statistics(cputime, Now),
    long_enough(Long),
    Enough is Now + Long,
    collect(0, Enough, Took),
    msort(Took, Sorted),
    length(Sorted, Calls),
    Half is Calls // 2,
    nth0(0, Sorted, Quickest),
    nth0(Half, Sorted, Median),
    Best is round(Quickest * 1.0e9),
    Middle is round(Median * 1.0e9).

warm_up(Until) :- repeat, clocked(_), statistics(cputime, Now), Now >= Until, !.

collect(Calls, Enough, Took) :-
    statistics(cputime, Now),
    fewest(Fewest),
    most(Most),
    (   Calls >= Fewest, ( Calls >= Most ; Now >= Enough )
    ->  Took = []
    ;   clocked(One),
        Took = [One|More],
        Next is Calls + 1,
        collect(Next, Enough, More)
    ).
