EYE	; the eye clinic's patients: ^PATIENT(number)="LAST,FIRST^date of birth", and ^PATIENT("NAME",name,number)
	Q
	;
ADD(TEXT,BORN)	; a new patient, by a number with its check digit
	N NAME,OK,N,DIGIT,SHOWN
	D KEEP^|"LIB"|LNAME(TEXT,.NAME) I NAME="" W "no name: ",TEXT,! Q
	D VALID^|"LIB"|LDATE(BORN,.OK) I 'OK W "no date: ",BORN,! Q
	S (^PATIENT,N)=$G(^PATIENT,1000)+1
	D LUHN^|"LIB"|LCHECK(N,.DIGIT),SHOW^|"LIB"|LNAME(NAME,.SHOWN)
	S N=N_DIGIT,^PATIENT(N)=NAME_"^"_BORN,^PATIENT("NAME",NAME,N)=""
	W SHOWN," has the number ",N,!
	Q
COMES(N,DATE)	; on which day a patient comes, and how old
	N OK,DAY,AGE,SHOWN
	D ISLUHN^|"LIB"|LCHECK(N,.OK) I 'OK W N," is mistyped",! Q
	I '$D(^PATIENT(N)) W "nobody has the number ",N,! Q
	D WEEKDAY^|"LIB"|LDATE(DATE,.DAY),AGE^|"LIB"|LDATE($P(^PATIENT(N),"^",2),DATE,.AGE),SHOW^|"LIB"|LNAME($P(^(N),"^"),.SHOWN)
	W SHOWN,", ",AGE," years, comes on ",DAY D SHOW^|"LIB"|LDATE(DATE,.SHOWN) W ", ",SHOWN,!
	Q
LIST	; all patients, by name
	N NAME,N
	S NAME=""
	F  S NAME=$O(^PATIENT("NAME",NAME)) Q:NAME=""  S N=$O(^(NAME,"")) W N," ",NAME,!
	Q
