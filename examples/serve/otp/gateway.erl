%% A gateway by OTP's diameter with two peers: what it asks goes to the first of them that is there, by the order of their hosts, and what wasn't
%% answered when that is lost goes to the other (RFC 6733, 5.5.4).
%%
%% gateway:main([Host, Count, Port..]) attaches so many subscribers. A line "update" on standard input has it update one session after the other,
%% and say "updated"; a line "rules" has it print the rules that it was told, and "end" behind them. It ends with its input.
%%
%% Each thing that happens is a line on standard output. It ends with status 1 where a request isn't answered by success.
-module(gateway).
-export([main/1]).
-export([peer_up/3, peer_down/3, pick_peer/4, prepare_request/3, prepare_retransmit/3, handle_answer/4, handle_error/4, handle_request/3]).
-include_lib("diameter/include/diameter.hrl").
-include("gx.hrl").

-define(REALM, "example").
-define(GX, 16777238).
-define(WATCHDOG, 6000).
-define(RECONNECT, 1000).
-define(LIMIT, 30000).

main([Host, Count | Ports]) ->
    rules = ets:new(rules, [named_table, public, ordered_set]),
    register(gateway, self()),
    ok = diameter:start(),
    ok = diameter:start_service(gateway, [
        {'Origin-Host', Host}, {'Origin-Realm', ?REALM}, {'Vendor-Id', 10415}, {'Product-Name', "OTP"},
        {'Origin-State-Id', diameter:origin_state_id()}, {'Supported-Vendor-Id', [10415]}, {'Auth-Application-Id', [?GX]},
        {string_decode, false}, {strict_mbit, false}, {application, [{alias, gx}, {dictionary, gx}, {module, ?MODULE}]}]),
    [{ok, _} = diameter:add_transport(gateway, {connect, [
        {transport_module, diameter_tcp}, {connect_timer, ?RECONNECT}, {watchdog_timer, ?WATCHDOG},
        {transport_config, [{raddr, {127, 0, 0, 1}}, {rport, list_to_integer(Port)}]}]}) || Port <- Ports],
    [receive up -> ok after ?LIMIT -> fail("no peer came") end || _ <- Ports],
    Sessions = [{Host, Number} || Number <- lists:seq(1, list_to_integer(Count))],
    [attach(Session) || Session <- Sessions],
    say("attached", []),
    obey(Sessions, 1).

%% What it is asked on standard input.
obey(Sessions, Number) ->
    case io:get_line("") of
        "rules\n" -> [say("~s ~s", [Session, Name]) || {{Session, Name}} <- ets:tab2list(rules)], say("end", []), obey(Sessions, Number);
        "update\n" -> [ask(Session, 2, Number, []) || Session <- Sessions], say("updated", []), obey(Sessions, Number + 1);
        eof -> halt(0)
    end.

session({Host, Number}) -> Host ++ ";1;" ++ integer_to_list(Number).

attach({_, Number} = Session) ->
    Subscriber = #'gx_Subscription-Id'{'Subscription-Id-Type' = 1, 'Subscription-Id-Data' = io_lib:format("00101~10..0b", [Number])},
    ask(Session, 1, 0, [Subscriber, <<10, 0, (Number bsr 8), (Number band 255)>>]).

ask({Host, _} = Session, Kind, Number, User) ->
    Request = #gx_CCR{
        'Session-Id' = session(Session), 'Auth-Application-Id' = ?GX, 'Origin-Host' = Host, 'Origin-Realm' = ?REALM,
        'Destination-Realm' = ?REALM, 'CC-Request-Type' = Kind, 'CC-Request-Number' = Number},
    case diameter:call(gateway, gx, with_user(Request, User), [{timeout, ?LIMIT}]) of
        {ok, #gx_CCA{'Result-Code' = [2001], 'Charging-Rule-Remove' = Removed, 'Charging-Rule-Install' = Installed}} ->
            do("answer", session(Session), Removed, Installed);
        Other -> fail(io_lib:format("~s was answered by ~p", [session(Session), Other]))
    end.

with_user(Request, []) -> Request;
with_user(Request, [Subscriber, Address]) ->
    Request#gx_CCR{'Subscription-Id' = [Subscriber], 'Framed-IP-Address' = [Address], 'Called-Station-Id' = ["ims"]}.

%% What a message tells of a session's rules is done.
do(What, Session, Removed, Installed) ->
    Id = iolist_to_binary(Session),
    Old = [iolist_to_binary(Name) || #'gx_Charging-Rule-Remove'{'Charging-Rule-Name' = Names} <- Removed, Name <- Names],
    New = [iolist_to_binary(Name) || #'gx_Charging-Rule-Install'{'Charging-Rule-Definition' = Definitions} <- Installed,
        #'gx_Charging-Rule-Definition'{'Charging-Rule-Name' = Name} <- Definitions],
    [ets:delete(rules, {Id, Name}) || Name <- Old],
    [ets:insert(rules, {{Id, Name}}) || Name <- New],
    [say("~s of ~s at ~p: -~p +~p", [What, Id, erlang:monotonic_time(millisecond), Old, New]) || Old ++ New =/= []],
    ok.

fail(What) -> say("failed: ~s", [What]), halt(1).

say(Format, Values) -> io:format(Format ++ "~n", Values).

host({_, #diameter_caps{origin_host = {_, Host}}}) -> Host.

peer_up(_, Peer, State) -> say("connected to ~s", [host(Peer)]), gateway ! up, State.
peer_down(_, Peer, State) -> say("lost ~s", [host(Peer)]), State.
pick_peer(Peers, _, _, _) -> {ok, hd(lists:sort(fun(One, Other) -> host(One) =< host(Other) end, Peers))}.
prepare_request(#diameter_packet{msg = Request}, _, _) -> {send, Request}.
prepare_retransmit(#diameter_packet{msg = #gx_CCR{'Session-Id' = Session}} = Packet, Service, Peer) ->
    say("~s asks ~s again", [Session, host(Peer)]),
    prepare_request(Packet, Service, Peer).
handle_answer(#diameter_packet{msg = Answer, errors = []}, _, _, _) -> {ok, Answer};
handle_answer(#diameter_packet{errors = Errors}, _, _, _) -> {error, Errors}.
handle_error(Reason, _, _, _) -> {error, Reason}.

handle_request(#diameter_packet{msg = #gx_RAR{} = Request, errors = []}, _, {_, #diameter_caps{origin_host = {Host, _}}}) ->
    #gx_RAR{'Session-Id' = Session, 'Charging-Rule-Remove' = Removed, 'Charging-Rule-Install' = Installed} = Request,
    do("push", Session, Removed, Installed),
    {reply, #gx_RAA{'Session-Id' = Session, 'Origin-Host' = Host, 'Origin-Realm' = ?REALM, 'Result-Code' = [2001]}};
handle_request(#diameter_packet{errors = Errors}, _, _) ->
    say("a request has ~p", [Errors]),
    {answer_message, 5012}.
