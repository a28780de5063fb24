VISIT	; visits: ^VISIT(date,time)="patient^doctor^reason", and ^VISIT("P",patient,date,time)
	Q
	;
BOOK	; books DATE, TIME, DOCTOR and REASON for the patient ID
	I '$D(^PATIENT(ID)) W "no patient ",ID,! Q
	I $D(^VISIT(DATE,TIME)) W DATE," ",TIME," is taken by patient ",$P(^(TIME),"^"),! Q
	S ^VISIT(DATE,TIME)=ID_"^"_DOCTOR_"^"_REASON,^VISIT("P",ID,DATE,TIME)=""
	W $P(^PATIENT(ID),"^")," comes on ",DATE," at ",TIME,!
	Q
	;
CANCEL	; takes the visit of DATE and TIME back
	N P
	I '$D(^VISIT(DATE,TIME)) W "no visit on ",DATE," at ",TIME,! Q
	S P=$P(^VISIT(DATE,TIME),"^")
	K ^VISIT(DATE,TIME),^VISIT("P",P,DATE,TIME)
	W "cancelled",!
	Q
