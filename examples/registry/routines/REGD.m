REGD	; dates: 20261129 is the 29th of November
	Q
	;
LEAP(Y)	Q Y#4=0&(Y#100)!(Y#400=0)
LENGTH(Y,M)	; the days of a month
	I M=2 Q 28+$$LEAP(Y)
	Q 30+$E("101010110101",M)
	;
SPLIT(DATE,Y,M,D)	; a date's parts
	S Y=$E(DATE,1,4),M=+$E(DATE,5,6),D=+$E(DATE,7,8)
	Q
	;
VALID(DATE)	; whether it is one
	N Y,M,D
	I DATE'?8N Q 0
	D SPLIT(DATE,.Y,.M,.D)
	I M<1!(M>12) Q 0
	Q D>0&(D'>$$LENGTH(Y,M))
	;
DAYS(DATE)	; days since the last of December of the year 0
	N Y,M,D,I
	D SPLIT(DATE,.Y,.M,.D)
	S D=Y-1*365+(Y-1\4)-(Y-1\100)+(Y-1\400)+D
	F I=1:1:M-1 S D=D+$$LENGTH(Y,I)
	Q D
	;
AGE(BORN,ON)	; whole years
	Q ON\10000-(BORN\10000)-(ON#10000<(BORN#10000))
	;
SHOWN(DATE)	; as people write it
	N Y,M,D
	D SPLIT(DATE,.Y,.M,.D)
	Q D_" "_$P("Jan Feb Mar Apr May Jun Jul Aug Sep Oct Nov Dec"," ",M)_" "_Y
WEEKDAY(DATE)	Q $P("Sun Mon Tue Wed Thu Fri Sat"," ",$$DAYS(DATE)#7+1)
