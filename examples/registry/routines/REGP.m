REGP	; patients of the registry
	; ^REG(id)="last^first^born^sex^town", ^REG(id,"V",date)="weight^height^systolic"
	; ^REG("B",last,first,id), ^REG("S",sound,id) and ^REG("T",town,id) are its cross index
	Q
	;
ADD(LAST,FIRST,BORN,SEX,TOWN)	; registers a patient; its id, or what is wrong after a "-"
	N ID,BAD
	S LAST=$$NAME^REGU(LAST),FIRST=$$NAME^REGU(FIRST),TOWN=$$NAME^REGU($G(TOWN,"unknown"))
	S BAD=$$WRONG(LAST,FIRST,BORN,$G(SEX)) Q:BAD'="" "-"_BAD
	S ID=$$SAME(LAST,FIRST,BORN) Q:ID "-there as "_ID
	S ID=$$NEXT()
	S ^REG(ID)=LAST_"^"_FIRST_"^"_BORN_"^"_SEX_"^"_TOWN
	D INDEX(ID,1)
	Q ID
	;
WRONG(LAST,FIRST,BORN,SEX)	; the first thing that is wrong with a patient's data, or nothing
	I LAST'?1U.AP Q "no last name"
	I FIRST="" Q "no first name"
	I '$$VALID^REGD(BORN) Q "no date: "_BORN
	I "FM"'[SEX!($L(SEX)'=1) Q "sex is F or M"
	Q ""
	;
SAME(LAST,FIRST,BORN)	; the id of a patient with the same name and date of birth, or 0
	N ID,FOUND
	S FOUND=0,ID=""
	F  S ID=$O(^REG("B",LAST,FIRST,ID)) Q:ID=""  I $$BORN(ID)=BORN S FOUND=ID Q
	Q FOUND
	;
NEXT()	; a new id: the next number, with a check digit after it
	N N
	L +^REG:5 E  Q 0
	S (N,^REG)=$G(^REG,100)+1
	L -^REG
	Q N_$$DIGIT^REGU(N)
	;
INDEX(ID,ON)	; puts a patient into the cross index, or takes it out
	N LAST,FIRST,KEY,TOWN
	S LAST=$$LAST(ID),FIRST=$$FIRST(ID),KEY=$$SOUND^REGU(LAST),TOWN=$$TOWN(ID)
	I ON S ^REG("B",LAST,FIRST,ID)="",^REG("S",KEY,ID)="",^REG("T",TOWN,ID)="" Q
	K ^REG("B",LAST,FIRST,ID),^REG("S",KEY,ID),^REG("T",TOWN,ID)
	Q
	;
MARRY(ID,LAST)	; gives a patient another last name
	Q:'$$IS(ID) 0
	D INDEX(ID,0)
	S $P(^REG(ID),"^")=$$NAME^REGU(LAST)
	D INDEX(ID,1)
	Q 1
	;
REMOVE(ID)	; removes a patient and all that is known of it
	I '$$IS(ID) W "no patient ",ID,! Q
	D INDEX(ID,0) W $$FULL(ID)," is removed",!
	K ^REG(ID)
	Q
	;
MEASURE(ID,DATE,WEIGHT,HEIGHT,SYS)	; keeps what was measured; a height that is not given is the last one
	I '$$IS(ID)!'$$VALID^REGD(DATE) Q 0
	N LAST
	D LATEST(ID,.LAST)
	I '$D(HEIGHT) S HEIGHT=$G(LAST("HEIGHT"))
	S ^REG(ID,"V",DATE)=WEIGHT_"^"_HEIGHT_"^"_$G(SYS)
	Q 1
	;
LATEST(ID,V)	; V: what was measured last, by name; nothing if nothing was
	N DATE,REC
	K V
	S DATE=$O(^REG(ID,"V",""),-1) Q:DATE=""
	S REC=^REG(ID,"V",DATE),V("DATE")=DATE
	S V("WEIGHT")=$P(REC,"^"),V("HEIGHT")=$P(REC,"^",2),V("SYS")=$P(REC,"^",3)
	Q
	;
IS(ID)	; whether there is such a patient
	I '$$CHECKED^REGU(ID) Q 0
	Q $D(^REG(ID))>0
	;
LAST(ID)	Q $P(^REG(ID),"^")
FIRST(ID)	Q $P(^REG(ID),"^",2)
BORN(ID)	Q $P(^REG(ID),"^",3)
SEX(ID)	Q $P(^REG(ID),"^",4)
TOWN(ID)	Q $P(^REG(ID),"^",5)
FULL(ID)	Q $$LAST(ID)_", "_$$FIRST(ID)
