REPORT	; reports over patients and visits
	Q
	;
DAY	; writes who comes on DATE, and how many each doctor sees
	N T,V,D,SEEN,L,R
	W "Visits on ",DATE,!
	S T="" F  S T=$O(^VISIT(DATE,T)) Q:T=""  D
	. S V=^VISIT(DATE,T),D=$P(V,"^",2)
	. S SEEN(D)=$G(SEEN(D))+1
	. S L=$J(T,5),R=$P(^PATIENT($P(V,"^")),"^") D ^%PAD
	. W L,$P(V,"^",3),!
	I $O(SEEN(""))="" W "none",!
	S D="" F  S D=$O(SEEN(D)) Q:D=""  W D,": ",SEEN(D),!
	Q
	;
OF	; writes all visits of the patient ID
	N D,T
	W $P(^PATIENT(ID),"^"),!
	S D="" F  S D=$O(^VISIT("P",ID,D)) Q:D=""  D
	. S T="" F  S T=$O(^VISIT("P",ID,D,T)) Q:T=""  W "  ",D,$J(T,6)," ",$P(^VISIT(D,T),"^",3),!
	Q
