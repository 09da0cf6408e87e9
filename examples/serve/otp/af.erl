%% An application function by OTP's diameter, whose calls a site aborts when their gateway's sessions end (TS 29.214, 4.4.6.1).
%%
%% af:main([Port, "calls"]) sets two calls up, is asked to end the first, and does; then it goes, and leaves the second.
%% af:main([Port, "returns"]) comes back, and is asked to end that one.
%%
%% Each thing that happens is a line on standard output. It ends with status 1 where something else happens.
-module(af).
-export([main/1]).
-export([peer_up/3, peer_down/3, pick_peer/4, prepare_request/3, prepare_retransmit/3, handle_answer/4, handle_error/4, handle_request/3]).
-include_lib("diameter/include/diameter.hrl").
-include("rx.hrl").

-define(HOST, "otp.example").
-define(REALM, "example").
-define(RX, 16777236).
-define(LIMIT, 60000).

main([Port, What]) ->
    register(af, self()),
    ok = diameter:start(),
    ok = diameter:start_service(af, [
        {'Origin-Host', ?HOST}, {'Origin-Realm', ?REALM}, {'Vendor-Id', 10415}, {'Product-Name', "OTP"},
        {'Supported-Vendor-Id', [10415]}, {'Auth-Application-Id', [?RX]}, {string_decode, false},
        {application, [{alias, rx}, {dictionary, rx}, {module, ?MODULE}]}]),
    {ok, _} = diameter:add_transport(af, {connect, [{transport_module, diameter_tcp},
        {transport_config, [{raddr, {127, 0, 0, 1}}, {rport, list_to_integer(Port)}]}]}),
    await(up),
    run(What),
    counted(),
    ok = diameter:stop_service(af),
    halt(0).

run("calls") ->
    [2001, 2001] = [set_up(Number) || Number <- [1, 2]],
    obey(1),
    5002 = terminate(1);
run("returns") ->
    obey(2).

%% A call of the subscriber of that number, who has a prefix of 64 bits and is named by an address of it.
set_up(Number) ->
    Flow = #'rx_Media-Sub-Component'{'Flow-Number' = 1, 'Flow-Description' = ["permit out ip from any to any"]},
    Component = #'rx_Media-Component-Description'{'Media-Component-Number' = 1, 'Media-Type' = [0], 'Media-Sub-Component' = [Flow]},
    ask("AA", Number, #rx_AAR{
        'Session-Id' = session(Number), 'Auth-Application-Id' = ?RX, 'Origin-Host' = ?HOST, 'Origin-Realm' = ?REALM,
        'Destination-Realm' = ?REALM, 'Framed-IPv6-Prefix' = [<<0, 128, 16#2001:16, 16#db8:16, 0:16, Number:16, 5:64>>],
        'Media-Component-Description' = [Component]}).

%% It is asked to end a call, answers, and ends it.
obey(Number) ->
    await({asked, list_to_binary(session(Number))}),
    2001 = terminate(Number).

terminate(Number) ->
    ask("Session-Termination", Number, #rx_STR{
        'Session-Id' = session(Number), 'Origin-Host' = ?HOST, 'Origin-Realm' = ?REALM, 'Destination-Realm' = ?REALM,
        'Auth-Application-Id' = ?RX, 'Termination-Cause' = 1}).

session(Number) -> ?HOST ++ ";" ++ integer_to_list(Number).

%% The code by which a request is answered.
ask(Name, Number, Request) ->
    {ok, Answer} = diameter:call(af, rx, Request, [{timeout, ?LIMIT}]),
    Code = case Answer of
        #rx_AAA{'Result-Code' = [Result]} -> Result;
        #rx_STA{'Result-Code' = Result} -> Result
    end,
    say("~s of ~s: ~p", [Name, session(Number), Code]),
    Code.

%% Since the connection began the site asked once, by OTP's own count, and was answered by success.
counted() ->
    [{_, Counts}] = diameter:service_info(af, statistics),
    [1, 1] = [proplists:get_value(Key, Counts) || Key <- [{{?RX, 274, 1}, recv}, {{?RX, 274, 0}, send, {'Result-Code', 2001}}]],
    say("one Abort-Session-Request came, and one answer of success went", []).

await(Event) ->
    receive Event -> ok after ?LIMIT -> say("no ~p", [Event]), halt(1) end.

say(Format, Values) -> io:format(Format ++ "~n", Values).

peer_up(_, {_, #diameter_caps{origin_host = {_, Host}}}, State) -> say("connected to ~s", [Host]), af ! up, State.
peer_down(_, _, State) -> State.
pick_peer([Peer | _], _, _, _) -> {ok, Peer}.
prepare_request(#diameter_packet{msg = Request}, _, _) -> {send, Request}.
prepare_retransmit(Packet, Service, Peer) -> prepare_request(Packet, Service, Peer).
handle_answer(#diameter_packet{msg = Answer, errors = []}, _, _, _) -> {ok, Answer};
handle_answer(#diameter_packet{errors = Errors}, _, _, _) -> {error, Errors}.
handle_error(Reason, _, _, _) -> {error, Reason}.

%% The call is ended once the answer is on its way.
handle_request(#diameter_packet{msg = #rx_ASR{'Session-Id' = Session, 'Destination-Host' = <<?HOST>>, 'Abort-Cause' = 0}, errors = []}, _, _) ->
    say("Abort-Session of ~s, answered by success", [Session]),
    Answer = #rx_ASA{'Session-Id' = Session, 'Origin-Host' = ?HOST, 'Origin-Realm' = ?REALM, 'Result-Code' = [2001]},
    {eval, {reply, Answer}, fun() -> af ! {asked, iolist_to_binary(Session)} end}.
