%% Erlang: dets (erlang-dets), disk_log (erlang-disklog) and mnesia (erlang-mnesia), synced for each key. The words are those of stores.c.
-mode(compile).
main(Words) ->
    %% Mnesia goes on after a failure, and waits.
    try run(Words), halt(0) catch _:Why -> io:format("~p~n", [Why]), halt(1) end.

run([Kind, Path, Command | Rest]) ->
    logger:set_primary_config(level, critical),
    open(Kind, Path, Command),
    case Command of
        "make" -> ok;
        "work" -> work(Kind, lists:map(fun list_to_integer/1, lists:sublist(Rest, 2)), lists:last(Rest));
        "list" -> [io:format("~w|~s~n", [K, V]) || {K, V} <- all(Kind)], io:format("end~n")
    end,
    close(Kind).

work(Kind, [Operations, Keys], Acknowledged) ->
    [begin
         Value = integer_to_list(N) ++ ":" ++ lists:duplicate(N * 37 rem 900, $a + N rem 26),
         ok = put(Kind, N rem Keys, Value),
         ok = file:write_file(Acknowledged, integer_to_list(N) ++ "\n", [append])
     end || N <- lists:seq(1, Operations)].

open("erlang-dets", Path, _) -> {ok, d} = dets:open_file(d, [{file, Path}, {auto_save, infinity}]);
open("erlang-disklog", Path, _) -> opened(disk_log:open([{name, d}, {file, Path}]));
open("erlang-mnesia", Path, Command) ->
    application:set_env(mnesia, dir, Path),
    application:set_env(mnesia, core_dir, filename:dirname(os:getenv("ACKNOWLEDGED"))),
    application:set_env(mnesia, dump_log_write_threshold, 20),
    [ok = mnesia:create_schema([node()]) || Command =:= "make"],
    ok = mnesia:start(),
    [{atomic, ok} = mnesia:create_table(d, [{disc_copies, [node()]}, {attributes, [key, value]}]) || Command =:= "make"],
    ok = mnesia:wait_for_tables([d], 10000).

opened({ok, d}) -> ok;
opened({repaired, d, _, _}) -> ok.

put("erlang-dets", K, V) -> ok = dets:insert(d, {K, V}), dets:sync(d);
put("erlang-disklog", K, V) -> ok = disk_log:log(d, {K, V}), disk_log:sync(d);
put("erlang-mnesia", K, V) -> {atomic, ok} = mnesia:transaction(fun() -> mnesia:write({d, K, V}) end), mnesia:sync_log().

all("erlang-dets") -> dets:match_object(d, '_');
all("erlang-disklog") -> maps:to_list(maps:from_list(chunks(disk_log:chunk(d, start))));
all("erlang-mnesia") -> {atomic, All} = mnesia:transaction(fun() -> mnesia:match_object({d, '_', '_'}) end), [{K, V} || {d, K, V} <- All].

chunks(eof) -> [];
chunks({Next, Terms}) -> Terms ++ chunks(disk_log:chunk(d, Next)).

close("erlang-dets") -> dets:close(d);
close("erlang-disklog") -> disk_log:close(d);
close("erlang-mnesia") -> mnesia:stop().
