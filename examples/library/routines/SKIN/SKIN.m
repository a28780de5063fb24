SKIN	; the skin clinic's calls and bills
	Q
	;
AGAIN(NAME,DATE,COUNT)	; when somebody is called again, so many days after a date, on no weekend
	N DAY,SHOWN
	D AFTER^|"LIB"|LDATE(DATE,COUNT,.DATE)
	I DATE="" W "no date",! Q
	F  D WEEKDAY^|"LIB"|LDATE(DATE,.DAY) Q:"Sat Sun"'[DAY  D AFTER^|"LIB"|LDATE(DATE,1,.DATE)
	S ^CALL(DATE,NAME)=""
	D SHOW^|"LIB"|LDATE(DATE,.SHOWN) W NAME," is called on ",DAY,", ",SHOWN,!
	Q
PAYS(NAME,IBAN)	; from which account somebody pays
	N OK
	D IBAN^|"LIB"|LCHECK(IBAN,.OK) I 'OK W IBAN," is mistyped",! Q
	S ^PAYS(NAME)=$TR(IBAN," ") W NAME," pays from ",^PAYS(NAME),!
	Q
