%% Answers as OTP's diameter decodes them by a strict dictionary: each line of standard input is the bytes of one, in hexadecimal digits.
%%
%% Of one that it finds fault with it writes a line: the application, the command, the Result-Codes of its faults and the AVPs' codes, and the
%% bytes. One of a command that the dictionaries don't have is passed over, unless it has E: that is an answer-message of any command.
-module(answers).
-export([main/0]).
-include_lib("diameter/include/diameter.hrl").

-define(GX, 16777238).
-define(RX, 16777236).
-define(BASE, diameter_gen_base_rfc6733).

main() ->
    case io:get_line("") of
        eof -> halt(0);
        Line -> judge(string:trim(Line)), main()
    end.

judge(Digits) ->
    Bytes = binary:decode_hex(list_to_binary(Digits)),
    <<_:34, Error:1, _:5, Command:24, Application:32, _/binary>> = Bytes,
    Own = case Application of ?GX -> strict_gx; ?RX -> strict_rx; _ -> ?BASE end,
    Dictionary = case Error of 1 -> ?BASE; 0 -> Own end,
    case Error =:= 1 orelse lists:member({Application, Command}, [{?GX, 272}, {?RX, 265}, {?RX, 275}, {0, 257}, {0, 280}, {0, 282}]) of
        true -> tell(Application, Command, Digits, faults(Dictionary, Own, Bytes));
        false -> ok
    end.

faults(Dictionary, Own, Bytes) ->
    Options = #{decode_format => record, string_decode => false, strict_mbit => true, rfc => 6733, app_dictionary => Own},
    (diameter_codec:decode(Dictionary, Options, Bytes))#diameter_packet.errors.

tell(_, _, _, []) -> ok;
tell(Application, Command, Digits, Faults) ->
    Named = [io_lib:format(" ~p:~p", [Code, Avp#diameter_avp.code]) || {Code, Avp} <- Faults],
    io:format("~p ~p~s ~s~n", [Application, Command, Named, Digits]).
