# refused 9 at 3: an anchor's name has no quote.
anchor def "say \"hi\"" ( text "x" )
