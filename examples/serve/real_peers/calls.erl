%% An application function by OTP's diameter that sets a call up each few seconds, keeps it for a while and ends it.
%%
%% calls:main([Host, Port, Pause, Kept, Address..]) has a call of the next subscriber every Pause milliseconds, and each for Kept of them;
%% the addresses are the subscribers'. It runs until it is killed.
%%
%% Each thing that happens is a line on standard output. OTP's own complaints are lines of its logger.
-module(calls).
-export([main/1]).
-export([peer_up/3, peer_down/3, pick_peer/4, prepare_request/3, prepare_retransmit/3, handle_answer/4, handle_error/4, handle_request/3]).
-include_lib("diameter/include/diameter.hrl").
-include("rx.hrl").

-define(REALM, "example").
-define(RX, 16777236).
-define(WATCHDOG, 6000).
-define(LIMIT, 5000).
-define(FIRST, 2000).

main([Host, Port, Pause, Kept | Subscribers]) ->
    ok = diameter:start(),
    ok = diameter:start_service(calls, [
        {'Origin-Host', Host}, {'Origin-Realm', ?REALM}, {'Vendor-Id', 10415}, {'Product-Name', "OTP"},
        {'Supported-Vendor-Id', [10415]}, {'Auth-Application-Id', [?RX]}, {string_decode, false},
        {application, [{alias, rx}, {dictionary, rx}, {module, ?MODULE}]}]),
    true = diameter:subscribe(calls),
    {ok, _} = diameter:add_transport(calls, {connect, [
        {transport_module, diameter_tcp}, {connect_timer, ?WATCHDOG}, {watchdog_timer, ?WATCHDOG},
        {transport_config, [{raddr, {127, 0, 0, 1}}, {rport, list_to_integer(Port)}]}]}),
    spawn_link(fun() ->
        timer:sleep(?FIRST),
        set_up_for_ever(Host, list_to_integer(Pause), list_to_integer(Kept), [address(Each) || Each <- Subscribers])
    end),
    listen().

address(Text) ->
    {ok, {A, B, C, D}} = inet:parse_ipv4_address(Text),
    <<A, B, C, D>>.

%% What OTP itself tells of its peer: whether it is there, and how its watchdogs stand.
listen() ->
    receive
        #diameter_event{info = {watchdog, _, _, {From, To}, _}} -> say("watchdog ~p to ~p", [From, To]);
        #diameter_event{info = Info} -> say("event ~p", [element(1, Info)])
    end,
    listen().

set_up_for_ever(Host, Pause, Kept, [Subscriber | More]) ->
    spawn(fun() -> call(diameter:session_id(Host), Host, Kept, Subscriber) end),
    timer:sleep(Pause),
    set_up_for_ever(Host, Pause, Kept, More ++ [Subscriber]).

%% A call, from its beginning to its end. Where its beginning isn't answered there is nothing to end.
call(Session, Host, Kept, Subscriber) ->
    Flow = #'rx_Media-Sub-Component'{'Flow-Number' = 1, 'Flow-Description' = ["permit out ip from any to any"]},
    Component = #'rx_Media-Component-Description'{'Media-Component-Number' = 1, 'Media-Type' = [0], 'Media-Sub-Component' = [Flow]},
    case ask("AA", #rx_AAR{
        'Session-Id' = Session, 'Auth-Application-Id' = ?RX, 'Origin-Host' = Host, 'Origin-Realm' = ?REALM, 'Destination-Realm' = ?REALM,
        'Framed-IP-Address' = [Subscriber], 'Media-Component-Description' = [Component]}) of
        2001 -> timer:sleep(Kept), terminate(Session, Host);
        _ -> ok
    end.

terminate(Session, Host) ->
    ask("Session-Termination", #rx_STR{
        'Session-Id' = Session, 'Origin-Host' = Host, 'Origin-Realm' = ?REALM, 'Destination-Realm' = ?REALM,
        'Auth-Application-Id' = ?RX, 'Termination-Cause' = 1}).

%% The code by which a request is answered, or why it isn't.
ask(Name, Request) ->
    Answered = case diameter:call(calls, rx, Request, [{timeout, ?LIMIT}]) of
        {ok, #rx_AAA{'Result-Code' = [Result]}} -> Result;
        {ok, #rx_AAA{'Experimental-Result' = [_]}} -> experimental;
        {ok, #rx_STA{'Result-Code' = Result}} -> Result;
        {error, Reason} -> Reason
    end,
    say("answer ~s ~p", [Name, Answered]),
    Answered.

say(Format, Values) -> io:format(Format ++ "~n", Values).

peer_up(_, {_, #diameter_caps{origin_host = {_, Host}}}, State) -> say("connected to ~s", [Host]), State.
peer_down(_, {_, #diameter_caps{origin_host = {_, Host}}}, State) -> say("lost ~s", [Host]), State.
pick_peer([Peer | _], _, _, _) -> {ok, Peer}.
prepare_request(#diameter_packet{msg = Request}, _, _) -> {send, Request}.
prepare_retransmit(Packet, Service, Peer) -> prepare_request(Packet, Service, Peer).
handle_answer(#diameter_packet{msg = Answer, errors = []}, _, _, _) -> {ok, Answer};
handle_answer(#diameter_packet{errors = Errors}, _, _, _) -> {error, Errors}.
handle_error(Reason, _, _, _) -> {error, Reason}.

%% No call is to be aborted, since no gateway's session ends.
handle_request(#diameter_packet{msg = Request}, _, _) -> say("unexpected ~p", [element(1, Request)]), {answer_message, 5012}.
