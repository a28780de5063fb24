PATIENT	; patients: ^PATIENT(id)="name^year of birth", and ^PATIENT("B",name,id) by name
	Q
	;
ADD	; registers a patient of NAME and BORN, and leaves the number in ID
	S ID=$O(^PATIENT("A"),-1)+1
	L +^PATIENT(ID):0
	I '$T W "patient ",ID," is being registered at another terminal",! Q
	S ^PATIENT(ID)=NAME_"^"_BORN,^PATIENT("B",NAME,ID)=""
	L -^PATIENT(ID)
	W ID," ",NAME,!
	Q
	;
FIND	; writes the patients whose names begin with PART
	N N S N=PART
	I N'="",$D(^PATIENT("B",N)) D SHOW
	F  S N=$O(^PATIENT("B",N)) Q:N=""!($E(N,1,$L(PART))'=PART)  D SHOW
	Q
	;
SHOW	; writes the patients of the name N
	N I S I=""
	F  S I=$O(^PATIENT("B",N,I)) Q:I=""  W I," ",N,", born ",$P(^PATIENT(I),"^",2),!
	Q
