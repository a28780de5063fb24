LDATE	; dates: 20261129 is the 29th of November; days are counted as $HOROLOG does, 1 for 18410101
	Q
	;
LEAP(Y,IS)	S IS=Y#4=0&(Y#100)!(Y#400=0) Q
LENGTH(Y,M,DAYS)	; DAYS: how many a month has
	N LEAP
	D LEAP(Y,.LEAP)
	S DAYS=$S(M=2:28+LEAP,1:30+$E("101010110101",M))
	Q
SPLIT(DATE,Y,M,D)	; Y, M, D: a date's parts
	S Y=$E(DATE,1,4),M=+$E(DATE,5,6),D=+$E(DATE,7,8)
	Q
	;
VALID(DATE,OK)	; OK: whether it is a date, from 18410101 on
	N Y,M,D,LENGTH
	S OK=DATE?8N Q:'OK
	D SPLIT(DATE,.Y,.M,.D)
	S OK=M>0&(M<13)&(D>0)&(Y>1840) Q:'OK
	D LENGTH(Y,M,.LENGTH)
	S OK=D'>LENGTH
	Q
	;
DAY(DATE,DAY)	; DAY: the number of a date's day; empty if it is no date
	N Y,M,D,I,LENGTH,OK
	S DAY=""
	D VALID(DATE,.OK) Q:'OK
	D SPLIT(DATE,.Y,.M,.D)
	S DAY=Y-1*365+(Y-1\4)-(Y-1\100)+(Y-1\400)+D-672046
	F I=1:1:M-1 D LENGTH(Y,I,.LENGTH) S DAY=DAY+LENGTH
	Q
DATE(DAY,DATE)	; DATE: of a day's number, from 1 on
	N Y,M,D,FIRST,LENGTH
	S Y=DAY\366+1841
	F  D DAY(Y+1_"0101",.FIRST) Q:FIRST>DAY  S Y=Y+1
	D DAY(Y_"0101",.FIRST) S D=DAY-FIRST+1
	F M=1:1 D LENGTH(Y,M,.LENGTH) Q:D'>LENGTH  S D=D-LENGTH
	S DATE=Y*100+M*100+D
	Q
	;
AFTER(DATE,COUNT,LATER)	; LATER: the date so many days after it; empty if it is none
	N DAY
	S LATER=""
	D DAY(DATE,.DAY) I DAY'="" D DATE(DAY+COUNT,.LATER)
	Q
AGE(BORN,ON,YEARS)	S YEARS=ON\10000-(BORN\10000)-(ON#10000<(BORN#10000)) Q
WEEKDAY(DATE,NAME)	; NAME: of its day of the week
	N DAY
	D DAY(DATE,.DAY)
	S NAME=$P("Thu Fri Sat Sun Mon Tue Wed"," ",DAY#7+1)
	Q
SHOW(DATE,TEXT)	; TEXT: as people write it
	N Y,M,D
	D SPLIT(DATE,.Y,.M,.D)
	S TEXT=D_" "_$P("Jan Feb Mar Apr May Jun Jul Aug Sep Oct Nov Dec"," ",M)_" "_Y
	Q
