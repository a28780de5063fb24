REGR	; reports
	Q
	;
LIST(HIT,ON,TITLE)	; the patients of HIT, by name, with their ages and what was measured last
	N SORT,ID,L,F,V,N
	D SORT(.HIT,.SORT)
	W TITLE,!,$$RULE^REGU(65),!
	W "Id",?6,"Name",?32,"Born",?46,"Age   kg   BMI   mm",!
	S N=0,L="" F  S L=$O(SORT(L)) Q:L=""  S ID="" F  S ID=$O(SORT(L,ID)) Q:ID=""  D LINE(ID,ON) S N=N+1
	W $$RULE^REGU(65),!,$S(N=0:"nobody",N=1:"one patient",1:N_" patients"),!
	Q
SORT(HIT,SORT)	; SORT(name,id) of HIT(id)
	N ID,NAME
	K SORT
	S ID="" F  S ID=$O(HIT(ID)) Q:ID=""  S NAME=$$FULL^REGP(ID),SORT(NAME,ID)=""
	Q
LINE(ID,ON)	; a line of the list
	N V
	D LATEST^REGP(ID,.V)
	W ID,?6,$E($$FULL^REGP(ID),1,25),?32,$$SHOWN^REGD($$BORN^REGP(ID)),?46
	W $J($$AGE^REGD($$BORN^REGP(ID),ON),3)
	I '$D(V) W $J("-",5),$J("-",6),$J("-",5),! Q
	W $J(V("WEIGHT"),5,0),$$BMI(.V),$J($S(V("SYS")="":"-",1:V("SYS")),5),!
	Q
BMI(V)	; weight by the square of the height in metres, in six columns
	I '$G(V("HEIGHT")) Q $J("-",6)
	Q $J(V("WEIGHT")/(V("HEIGHT")*V("HEIGHT")/10000),6,1)
	;
TOWNS(ON)	; each town with its patients, their mean age, and the oldest
	N T,ID,N,SUM,AGE,OLD
	S T="" F  S T=$O(^REG("T",T)) Q:T=""  D
	. S (N,SUM)=0,OLD="",ID=""
	. F  S ID=$O(^REG("T",T,ID)) Q:ID=""  S AGE=$$AGE^REGD($$BORN^REGP(ID),ON),N=N+1,SUM=SUM+AGE D OLDER(ID,AGE,.OLD)
	. W T,?14,$J(N,3),$J(SUM/N,7,1),"  ",$$FULL^REGP(+OLD)," (",$P(OLD,"^",2),")",!
	. Q
	Q
OLDER(ID,AGE,OLD)	; OLD: the id and the age of the older one
	I OLD=""!(AGE>$P(OLD,"^",2)) S OLD=ID_"^"_AGE
	Q
	;
COURSE(ID)	; what was measured, and the change per day
	N DATE,REC,BEFORE,PER
	I '$$IS^REGP(ID) W "no patient ",ID,! Q
	W $$FULL^REGP(ID),!
	S DATE="" F  S DATE=$O(^REG(ID,"V",DATE)) Q:DATE=""  D
	. S REC=^REG(ID,"V",DATE),PER=""
	. I $D(BEFORE) S PER=$J(REC-BEFORE/($$DAYS^REGD(DATE)-$$DAYS^REGD(BEFORE(1)))*1000,8,1)_" g"
	. W "  ",$$WEEKDAY^REGD(DATE)," ",$$LEFT^REGU($$SHOWN^REGD(DATE),12),$J(+REC,7,1),PER,!
	. S BEFORE=+REC,BEFORE(1)=DATE
	. Q
	I '$D(BEFORE) W "  nothing was measured",!
	Q
