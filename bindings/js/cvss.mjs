// Written by bindings/js/make.py from bindings/js/src, cvss.wasm and bindings/metrics.json.
const version = "2.0.0";
const TABLES = {"4.0":[{"title":"Exploitability","group":"base","base":true,"metrics":[{"name":"AV","title":"Attack Vector","ask":"Where must the attacker be?","values":[["N","Network","The attack works over a network, across routers."],["A","Adjacent","On the same link, in radio range, or inside the same administrative network."],["L","Local","On the system, through an account, a console, or a file that a user opens."],["P","Physical","The attacker must touch or handle the device."]]},{"name":"AC","title":"Attack Complexity","ask":"Must the attacker get past a defence?","values":[["L","Low","The attack can be repeated at will."],["H","High","A security measure must be overcome, such as address randomisation or a secret."]]},{"name":"AT","title":"Attack Requirements","ask":"Must the system be in a certain state?","values":[["N","None","The attack works against most deployments, most of the time."],["P","Present","A race condition must be won, or the system must be configured in a certain way."]]},{"name":"PR","title":"Privileges Required","ask":"Which privileges does the attacker need beforehand?","values":[["N","None","No account is needed."],["L","Low","Those of an ordinary user."],["H","High","Those of an administrator, or close to them."]]},{"name":"UI","title":"User Interaction","ask":"Must another person take part?","values":[["N","None","The attacker acts alone."],["P","Passive","A user does something ordinary, such as opening a page, unaware of the attack."],["A","Active","A user does something unusual, such as dismissing a warning."]]}]},{"title":"Impact on the vulnerable system","group":"base","base":true,"metrics":[{"name":"VC","title":"Confidentiality","full":"Confidentiality Impact to the Vulnerable System","ask":"What can the attacker read?","values":[["H","High","All of its data can be read, or data whose disclosure does serious harm."],["L","Low","Some of its data can be read, but the attacker does not choose which."],["N","None","Its data cannot be read."]]},{"name":"VI","title":"Integrity","full":"Integrity Impact to the Vulnerable System","ask":"What can the attacker change?","values":[["H","High","All of its data can be changed, or data whose change does serious harm."],["L","Low","Some data can be changed, without direct serious harm."],["N","None","Its data cannot be changed."]]},{"name":"VA","title":"Availability","full":"Availability Impact to the Vulnerable System","ask":"Can the attacker stop it?","values":[["H","High","It can be stopped completely, or its most important part can."],["L","Low","It becomes slower or is interrupted at times, but keeps working."],["N","None","It keeps working as before."]]}]},{"title":"Impact on subsequent systems","group":"base","base":true,"metrics":[{"name":"SC","title":"Confidentiality","full":"Confidentiality Impact to the Subsequent System","ask":"What can the attacker read in other systems?","values":[["H","High","All data of another system can be read, or data whose disclosure does serious harm."],["L","Low","Some data of another system can be read, but the attacker does not choose which."],["N","None","No data of other systems can be read."]]},{"name":"SI","title":"Integrity","full":"Integrity Impact to the Subsequent System","ask":"What can the attacker change in other systems?","values":[["H","High","All data of another system can be changed, or data whose change does serious harm."],["L","Low","Some data of another system can be changed, without direct serious harm."],["N","None","No data of other systems can be changed."]]},{"name":"SA","title":"Availability","full":"Availability Impact to the Subsequent System","ask":"Can the attacker stop other systems?","values":[["H","High","Another system can be stopped completely, or its most important part can."],["L","Low","Another system becomes slower or is interrupted at times."],["N","None","Other systems keep working as before."]]}]},{"title":"Threat","group":"threat","metrics":[{"name":"E","title":"Exploit Maturity","ask":"Is the vulnerability exploited?","values":[["X","Not defined","The score assumes Attacked."],["A","Attacked","Attacks were reported, or a ready-made exploit is available."],["P","Proof of concept","A proof of concept is public, and no attack was reported."],["U","Unreported","Neither a proof of concept nor an attack is known."]]}]},{"title":"Security requirements","group":"environmental","metrics":[{"name":"CR","title":"Confidentiality Requirement","ask":"How bad is a loss of confidentiality?","values":[["X","Not defined","It counts as High."],["H","High","A loss of confidentiality can be catastrophic for the organisation."],["M","Medium","A loss of confidentiality has serious effects on the organisation."],["L","Low","A loss of confidentiality has only limited effects on the organisation."]]},{"name":"IR","title":"Integrity Requirement","ask":"How bad is a loss of integrity?","values":[["X","Not defined","It counts as High."],["H","High","A loss of integrity can be catastrophic for the organisation."],["M","Medium","A loss of integrity has serious effects on the organisation."],["L","Low","A loss of integrity has only limited effects on the organisation."]]},{"name":"AR","title":"Availability Requirement","ask":"How bad is a loss of availability?","values":[["X","Not defined","It counts as High."],["H","High","A loss of availability can be catastrophic for the organisation."],["M","Medium","A loss of availability has serious effects on the organisation."],["L","Low","A loss of availability has only limited effects on the organisation."]]}]},{"title":"Modified exploitability","group":"environmental","metrics":[{"name":"MAV","of":"AV"},{"name":"MAC","of":"AC"},{"name":"MAT","of":"AT"},{"name":"MPR","of":"PR"},{"name":"MUI","of":"UI"}]},{"title":"Modified impact on the vulnerable system","group":"environmental","metrics":[{"name":"MVC","of":"VC"},{"name":"MVI","of":"VI"},{"name":"MVA","of":"VA"}]},{"title":"Modified impact on subsequent systems","group":"environmental","metrics":[{"name":"MSC","of":"SC","others":[["N","Negligible","No data of other systems can be read, or none that matters."]]},{"name":"MSI","of":"SI","others":[["S","Safety","The change can injure or kill people."],["N","Negligible","No data of other systems can be changed, or none that matters."]]},{"name":"MSA","of":"SA","others":[["S","Safety","The outage can injure or kill people."],["N","Negligible","Other systems keep working as before, or nearly so."]]}]},{"title":"Supplemental: changes no score","group":"supplemental","metrics":[{"name":"S","title":"Safety","ask":"Can people be injured?","values":[["X","Not defined","The provider does not say."],["P","Present","Injuries can be more than negligible (IEC 61508: marginal or worse)."],["N","Negligible","Injuries are negligible at most (IEC 61508)."]]},{"name":"AU","title":"Automatable","ask":"Can attacks on many targets be automated?","values":[["X","Not defined","The provider does not say."],["N","No","Some step of the attack cannot be automated."],["Y","Yes","Every step can be automated, from reconnaissance to exploitation, as a worm does."]]},{"name":"R","title":"Recovery","ask":"How does the system recover?","values":[["X","Not defined","The provider does not say."],["A","Automatic","It recovers by itself."],["U","User","Somebody has to restore it."],["I","Irrecoverable","It cannot be restored."]]},{"name":"V","title":"Value Density","ask":"How many resources does one attack reach?","values":[["X","Not defined","The provider does not say."],["D","Diffuse","Few resources, such as one person's device."],["C","Concentrated","Many resources, such as those of a central server."]]},{"name":"RE","title":"Vulnerability Response Effort","ask":"How much effort is the response?","values":[["X","Not defined","The provider does not say."],["L","Low","A change of settings, or an automatic update."],["M","Moderate","An update that needs care, with a short interruption."],["H","High","A difficult or long change, or a replacement of hardware."]]},{"name":"U","title":"Provider Urgency","ask":"How urgent is it for the provider?","values":[["X","Not defined","The provider does not say."],["Red","Red","The provider rates the urgency highest."],["Amber","Amber","The provider rates the urgency moderate."],["Green","Green","The provider rates the urgency reduced."],["Clear","Clear","The provider sees no urgency: for information only."]]}]}],"3.1":[{"title":"Exploitability","group":"base","base":true,"metrics":[{"name":"AV","title":"Attack Vector","ask":"Where must the attacker be?","values":[["N","Network","The attack works over a network, across routers."],["A","Adjacent","On the same link, in radio range, or inside the same administrative network."],["L","Local","On the system, through an account, a console, or a file that a user opens."],["P","Physical","The attacker must touch or handle the device."]]},{"name":"AC","title":"Attack Complexity","ask":"Does success depend on conditions that the attacker does not control?","values":[["L","Low","The attack can be repeated at will."],["H","High","The attacker must first gather knowledge, prepare the target, or intercept traffic."]]},{"name":"PR","title":"Privileges Required","ask":"Which privileges does the attacker need beforehand?","values":[["N","None","No account is needed."],["L","Low","Those of an ordinary user."],["H","High","Those of an administrator, or close to them."]]},{"name":"UI","title":"User Interaction","ask":"Must another person take part?","values":[["N","None","The attacker acts alone."],["R","Required","A user must do something first, such as opening a file."]]},{"name":"S","title":"Scope","ask":"Does the impact cross a security boundary?","values":[["U","Unchanged","The impact stays within the security authority of the vulnerable component."],["C","Changed","The impact reaches resources of another security authority."]]}]},{"title":"Impact","group":"base","base":true,"metrics":[{"name":"C","title":"Confidentiality Impact","ask":"What can the attacker read?","values":[["H","High","All data can be read, or data whose disclosure does serious harm."],["L","Low","Some data can be read, but the attacker does not choose which."],["N","None","No data can be read."]]},{"name":"I","title":"Integrity Impact","ask":"What can the attacker change?","values":[["H","High","All data can be changed, or data whose change does serious harm."],["L","Low","Some data can be changed, without direct serious harm."],["N","None","No data can be changed."]]},{"name":"A","title":"Availability Impact","ask":"Can the attacker stop it?","values":[["H","High","It can be stopped completely, or its most important part can."],["L","Low","It becomes slower or is interrupted at times, but keeps working."],["N","None","It keeps working as before."]]}]},{"title":"Temporal","group":"temporal","metrics":[{"name":"E","title":"Exploit Code Maturity","ask":"How mature is the exploit code?","values":[["X","Not defined","It counts as High."],["H","High","Autonomous exploit code exists, or none is needed."],["F","Functional","Working exploit code exists."],["P","Proof of concept","A proof of concept exists, which needs work before it can be used in an attack."],["U","Unproven","No exploit code is known, or the attack is theoretical."]]},{"name":"RL","title":"Remediation Level","ask":"Is there a fix?","values":[["X","Not defined","It counts as Unavailable."],["U","Unavailable","There is no fix, or it cannot be applied."],["W","Workaround","There is an unofficial workaround."],["T","Temporary fix","There is an official but temporary fix."],["O","Official fix","The vendor has a complete fix."]]},{"name":"RC","title":"Report Confidence","ask":"How certain is the report?","values":[["X","Not defined","It counts as Confirmed."],["C","Confirmed","It was reproduced, or the vendor has confirmed it."],["R","Reasonable","Much is known, but the cause is not fully certain."],["U","Unknown","There are reports, but the cause is unknown."]]}]},{"title":"Security requirements","group":"environmental","metrics":[{"name":"CR","title":"Confidentiality Requirement","ask":"How bad is a loss of confidentiality?","values":[["X","Not defined","It counts as Medium."],["H","High","A loss of confidentiality can be catastrophic for the organisation."],["M","Medium","A loss of confidentiality has serious effects on the organisation."],["L","Low","A loss of confidentiality has only limited effects on the organisation."]]},{"name":"IR","title":"Integrity Requirement","ask":"How bad is a loss of integrity?","values":[["X","Not defined","It counts as Medium."],["H","High","A loss of integrity can be catastrophic for the organisation."],["M","Medium","A loss of integrity has serious effects on the organisation."],["L","Low","A loss of integrity has only limited effects on the organisation."]]},{"name":"AR","title":"Availability Requirement","ask":"How bad is a loss of availability?","values":[["X","Not defined","It counts as Medium."],["H","High","A loss of availability can be catastrophic for the organisation."],["M","Medium","A loss of availability has serious effects on the organisation."],["L","Low","A loss of availability has only limited effects on the organisation."]]}]},{"title":"Modified exploitability","group":"environmental","metrics":[{"name":"MAV","of":"AV"},{"name":"MAC","of":"AC"},{"name":"MPR","of":"PR"},{"name":"MUI","of":"UI"},{"name":"MS","of":"S"}]},{"title":"Modified impact","group":"environmental","metrics":[{"name":"MC","of":"C","full":"Modified Confidentiality"},{"name":"MI","of":"I","full":"Modified Integrity"},{"name":"MA","of":"A","full":"Modified Availability"}]}],"2.0":[{"title":"Exploitability","group":"base","base":true,"metrics":[{"name":"AV","title":"Access Vector","ask":"Where must the attacker be?","values":[["N","Network","The attack works over a network."],["A","Adjacent network","On the same local network, or in radio range."],["L","Local","On the system, through an account, or at the device."]]},{"name":"AC","title":"Access Complexity","ask":"How special must the conditions be?","values":[["L","Low","The attack works against the default configuration."],["M","Medium","The configuration is not the default, or information must be gathered first."],["H","High","There is a narrow race, a rare configuration, or victims who would easily notice."]]},{"name":"Au","title":"Authentication","ask":"How often must the attacker log in?","values":[["N","None","The attacker need not log in."],["S","Single","The attacker must log in once."],["M","Multiple","The attacker must log in twice or more, even with the same credentials."]]}]},{"title":"Impact","group":"base","base":true,"metrics":[{"name":"C","title":"Confidentiality Impact","ask":"What can the attacker read?","values":[["C","Complete","All data on the system can be read."],["P","Partial","Much data can be read, but the attacker does not choose which."],["N","None","No data can be read."]]},{"name":"I","title":"Integrity Impact","ask":"What can the attacker change?","values":[["C","Complete","All data on the system can be changed."],["P","Partial","Some data can be changed, but the attacker does not choose which."],["N","None","No data can be changed."]]},{"name":"A","title":"Availability Impact","ask":"Can the attacker stop it?","values":[["C","Complete","The system can be stopped completely."],["P","Partial","It becomes slower or is interrupted at times."],["N","None","It keeps working as before."]]}]},{"title":"Temporal","group":"temporal","metrics":[{"name":"E","title":"Exploitability","ask":"How mature is the exploit code?","values":[["ND","Not defined","It counts as High."],["H","High","Autonomous exploit code exists, or none is needed."],["F","Functional","Working exploit code exists."],["POC","Proof of concept","A proof of concept exists, which needs work before it can be used in an attack."],["U","Unproven","No exploit code is known, or the attack is theoretical."]]},{"name":"RL","title":"Remediation Level","ask":"Is there a fix?","values":[["ND","Not defined","It counts as Unavailable."],["U","Unavailable","There is no fix, or it cannot be applied."],["W","Workaround","There is an unofficial workaround."],["TF","Temporary fix","There is an official but temporary fix."],["OF","Official fix","The vendor has a complete fix."]]},{"name":"RC","title":"Report Confidence","ask":"How certain is the report?","values":[["ND","Not defined","It counts as Confirmed."],["C","Confirmed","The vendor has confirmed it, or it is exploited."],["UR","Uncorroborated","Several unofficial sources report it, and may disagree."],["UC","Unconfirmed","One source reports it, or several that contradict each other."]]}]},{"title":"Environmental","group":"environmental","metrics":[{"name":"CDP","title":"Collateral Damage Potential","ask":"What else can be lost: lives, assets, revenue?","values":[["ND","Not defined","It counts as None."],["N","None","Nothing else can be lost."],["L","Low","Little can be lost."],["LM","Low to medium","A moderate amount can be lost."],["MH","Medium to high","A significant amount can be lost."],["H","High","Losses can be catastrophic."]]},{"name":"TD","title":"Target Distribution","ask":"How many of your systems are targets?","values":[["ND","Not defined","It counts as High."],["N","None","At most systems in a laboratory are targets."],["L","Low","Up to a quarter of them are targets."],["M","Medium","A quarter to three quarters of them are targets."],["H","High","More than three quarters of them are targets."]]},{"name":"CR","title":"Confidentiality Requirement","ask":"How bad is a loss of confidentiality?","values":[["ND","Not defined","It counts as Medium."],["L","Low","A loss of confidentiality has only limited effects on the organisation."],["M","Medium","A loss of confidentiality has serious effects on the organisation."],["H","High","A loss of confidentiality can be catastrophic for the organisation."]]},{"name":"IR","title":"Integrity Requirement","ask":"How bad is a loss of integrity?","values":[["ND","Not defined","It counts as Medium."],["L","Low","A loss of integrity has only limited effects on the organisation."],["M","Medium","A loss of integrity has serious effects on the organisation."],["H","High","A loss of integrity can be catastrophic for the organisation."]]},{"name":"AR","title":"Availability Requirement","ask":"How bad is a loss of availability?","values":[["ND","Not defined","It counts as Medium."],["L","Low","A loss of availability has only limited effects on the organisation."],["M","Medium","A loss of availability has serious effects on the organisation."],["H","High","A loss of availability can be catastrophic for the organisation."]]}]}]};
const DIGITS = "!#%()*+,-./0123456789:;=?@ABCDEFGHIJKLMNOPQRSTUVWXYZ[]^_abcdefghijklmnopqrstuvwxyz{|}";
const LENGTH = 157086;
const TEXT = "u,KfuD|?%cDetIHwX7yEHtG2Qlg3LdISHiwcLLXsob]|.GAGG{6FCMs0ii-y0I||o:8FY?Yw.3n4j3)Y9zfJ-,ma*V(Thm:Z}%c2ExmL:0L6(Gq!i+(*f49Q+HdOHDRoL[x(?Z8vHbQ7Yr-pRe!x{,mb![jYT@vv?#rN#Wa^Lf96t1Csum8;_#08oq{mxp*.tYis,d_)9|poR1d|1y:e-RJh=S9f)XIxng**htgku4J@XB5(EBz{d:xN9.U(#93I)F(yF4S)(iIbM2UMIE/X%o1:GNGBWeOF:AHZz4)B[56z43sN=sWU.-:l}g_gDRV9iO|{.,)DRAS9MoE/f@CdU5vpLQvBTPvfrvTM+|It2dDn0L:@i}By:KCWm5ot])|OjANq{PvikjPs@D_Xv7BqE6ld8_rUg|cWQJ2dPQR1#GXJR2_9ZdkabZ1NF8pnY,5GI^Wma(%YVl0;ey(zc(bp^}R*+r/d_w=!!mDN?LQGhcdD{ILlBK!mVEc9dtgOq3C6E)%geQ[=9Vb47rS2Edd_1czvtNn[cG1DOOizYuf(z*nx]:*h4D4r6]6N*nbf9#q*qNWRK?/mjET2o2EpSVJ4;KG9tIMSMERKBrPi?O@v+J.Y)[GdlB}kOGyNTkE.W9.av+^8ru#O.Dsy}VGd.Mnie+B?{.O1o!Ehq44Gk5_gEc?)6r9)Ayf7uv0efol2ee064O.%Gj]tU1}pVVwGfF@KoEL?hlP09w.a*f,za1qdmEL_8Yu59g%7+CWG1-8bZBkkNRbZbSaW48K8s[%u[PeO7NZsNhb7}_gzcVy;^Qgm154XIiZs[F42:2)tX1#qiG@q[xny.W3hW32V)C2UO_h}5k8-3#f4]*f%?XWF|nKp1MvB;WopDbL?/qnC1#WlujI+a|t=*kVC^#uGX.mJsH2P/2M*rELXQOO86|HMLEZygFvRAvS+W,l6h5]y0DRYHQAP)H+S9=Jx}i.9j)Ice?4z(3Juk99qq[y^YEoM!FotASP=XmeOnpX*KVYrJ?B+Z@L#LQhAhTp1]jliO7(Ho]Ss1rMy-zLdar;tJPU6HEC!%oI:0:+^!mD.}:@bl5DQe419r%i[Pj0;}M6[zP0Csg!%^bd1Q*ymH0)+D@vaTW8D=;v_s:ti?4:ql1xfNy]br3CQm%%R.eHiZ)D#OP2ZP!.Z)Rt!ZAxx)kYX]Lgrg+6Uu;^ca4EI_HqS+ySI;|Lw[2k@xs2!wjW/32Y;CP:JF+r*D#rLZ{1.R519L+EJ=x!#o@JY+htl:R7oT{K]YJmtVD9Iv3i6(f]HZWHS]4cjO_hR6cAfP87;n?dr3F1EY0KvB+ff=w;{(xNS}+SNZ}y.EAlIyYFat,ojJ^vI1Qr{rb^E@O#e0yRhXP;W7!pR**?ueaMe38^zb=w#/[,GX{xPiCJdY(8vnO9)|/J0zB*g/0Gf4.rvH?/(x6B?9]R]O?kUEHgnp}/c6v2iOP?]lZ;+qUBP2Rz/w*U#:.jFoK*2J+EcZOO#M%:r6p5YWR]=#:!upZ,1R-_JOR7kRXoz+u=3f=DV_{c}245X]p]5:kiCZ_Wd,nU*(1[LZ?t1+;Ggt5xZDTzw%-^V_?69Xm8T0mL,Uoe.8kb5S!wCf5lV5BBc@saOn43%Fq*j/E!2m9.[*tS#?-Bu^rhUigEwY)|!ik,xcC;WFv(yHs([b+)yhiv=aP??];%inLyd+k#Q%}g|)-,OnrwML,Xl#Pfg:JWgr*N_[wqtFNVMnP8)eJRpp|gvIdgR59Z2Ia%*1L?%pe5kg4oalew_ucnf{+qVNrW%a:y)n;:Wxxzn|y@AU-z.em^/*CZ3-*^])7gQNwF=SqyUjbudFURne7T9.Chzl-G/c;#gy-35I]{3BtBO}?_;4{B?Op%n-TkZZ,x2TDKb-wcDJrLcF7dz(Ok7xBqn#Fo9mpLt+iaQGJH4ad?3U=!bC2WPbx},tJ{!x^![/xlf]2t;]XMZLq=aoGki+R5o^vOZPb(aIBhazy^1=_#L]i4^4C=SgRI%Bf1dNH0s@x+MF2AggCkTb@-VjI5sL0W^*.YdxO{QzPi)faA8@him[/.L-jn53U(LkTUf0GhfiU[dmfV7*H(@J;j5Z8@LUQ*C+qo/m-zRdI*#X!j!gH+lMgd8^3UJJ%z(]_.DVcniaLf22)Ce220bx1Sy(1aogvC*(Y^|?n2U)/PCw#iyiN,fBOT3Ts99^3hko2i9n6@GO64HtFF6rB_I#BShp}wtrR[!AzVjNr[]irKo[29kKXiSuF!#Mt.s96]fq!fx}^6_r*K.k^VPOotW:3w9P-p-b/fM0[hEg+^.*0ky]AC,011I1#v0JQHxnR(F#?lwfCZjuzhZd0gEhKqa,.Vp.*_38Ds1E2N!H!xa(,fYcD.vFn(Y^U4p*2t51+KLCZQ)UHW0fi6[:Rk4S#ptzT)[^%:,)pOU#S]EMlb@TPGI0{!1v|E4?Q}1_/-8G}%u/!h4F/+9..E=V9w5JxMNc8MeFSp%786Se51xQnq{CjHPSQ}Ur*LsGwIJbA%,B?V9Zg8?E_PZjnlf)QgUl7HIZso^0PGoLN]P^7K4y!8xOj?VN@={O[x%BbKC5PvidKbyi!r3%/a.kNDzNrMFloj5%?m=R!2R[_ti?^|=3.16#wRFfMuGujoS=*ZOKj*B+N!iUi!oA-rOr@.enej5Tqu%.Y::(@,}ah7;CEQ+1WHb,FabbXOz+TAA,/h]*|pF/,f5{1sjnt{T}WRgIErL[=TZIui5.N9Txsn2,K_AFx1P}7ftzjfRqup;Na]yKAWZm1i^_{mty2Kab[_**ji4hx=Al_Zy5:yskm0R;SbqBR)H#(15wL,1v!S*Xj?g.E#;h_2v25x0r!Pg{*}wo:VQ^,87S_Iqe.ZN?Ho1FeT5!Q54vKoek(gR4(0#A_t;%b]%vw?qmawcyAFglgDKmh?ii65t70Yl2XgcTQXao2-ay;*|FbU7}O*[,r;:?=pqXw%I=EUq6yuMSntLa9:Ied,JWW*U_mdD0g_6NwxJ|Y(O9F-W}bq8_+5PM1[ES7ISnd+=.+XpSLzh[_z2SSo_w)9paJyNha{#F8Njx}QY)-pKpLzLqWWFtQIFSRv=GyAMdIYJ=qP4XTsTqyARytG(Fia7Be4f!Oke{u@Lf_[tZkFA%!j7Gw%vPGy{a8pWC+tGmSLGf1JqZp?VT^0gwjF1q.OgFzxoqDG,#Bk7jD:(U?1iu/2u7ysm[GrLu4%l}5DC!uOTP8R7g_ywgu=6qLAOg4Q.T)DAc*H,AEyO)[.2cvOKLL*_FJ3VH4J)jg+X:KBo26;7Bk3;)#Lo52uKzwLtO%ZK5HsSL/=,I5#FikO=+n)|n.d?mEAN#OcSFEk%8{sU_-%7k;A4fib{{WXFo{bHoM2F9Tp=Neu?!%/yZ*Z6s=#JW^}roHgekwr7_,XzA[Am])3RLFv^]DD(j2Hjm3f)nwqsNHO4idzNRpP{L}^{6N/bFTlmk_l+T8}aXoH:nC)#vW..Ksr(eDW[!CiT@6!;6UzT5TjlAx_}g0!htM!UkVXJyFKDIgdf@CaFW/,XIyp#!#EzQ@c8^OK6@Z]eNYa?o8#fn?3QLsgm_6lF,1u--N33?dvZFQ97XCiZuI6|O|+5.vzOM#=[Tx%7EM:%z;gTE(jm+)II,bW#8@.OWTiJ|Jz1K;BcPJn?sZg!7fOX4EqMc9%AwV1C!2F6x]Fg{SnoHIG5zJ-49jne7V/=dg,abao/wofld7,wHojwdKe#WeLz-gQLN}Icx--@#9.Ox#-[|vZpz2lF0%YO3:vBGh=GtlIU={5VQd(PgOY4aW2_z=fa@Z8c{6e+BIo2tSL)+G:cGe1tY/T;/!eBb602dNU3Qsly%-K^,r1GBynU}fU}=5@)ot5o59)@_5-(9x]Ec;5|nPpI:XvEmi=[n@)6PmiuVp%?p.Z#/?FwqvgG0B?].a[5^??b-6S)qUwi]uXaD!QAj}|X-[KQGYSo+o#mAe0(LKSr?W3S7mK=?j^S]rRPdlnU0X(MnZ2t.J[k;[Zt:F#yBh@.A9kxxU[]W3{8C2vhx_%JlX_1[r6]:O;+dNYnJss/n_b]hhh2,1un)3EE2LA1xMDlFvX_2/[H2Niq5)ErnGt]Xe?Y)CrM|w0un^-bv2V/Z*!i?,wzpav-0Tn@SRA5:7wd:/nJqc/{wqwB+4.6-cDKYB8S){^WNoWeuIzzLWufBqiMoo_6e{b-tkO+3NHbB+1-5]!K^}8f@omy?nBn3,xawo)ezQyH2hFGMq0Eu]@Gac2JlDZU7H}x(s-}I0hf?wYoNe{)ZAfhAC?vE--HjnVU*EWkis%*6!Tc+|M:AUBq[VF[VeFYN3,-C}.kI^LXfcY*RYEcdwT!j!)q0E/q^OTzRhYsG.oOu?iyKt,RZvE))5]KrWcN7Y!WMB+nm_!6@r7bFOJ!^C(8gmOYWDekixX:X3rJ{4)y{K4z_K/;12}dQ^V.d)D*zE?4uUgM37S(1Mneg!.YdWbDpwcG3wzs:edt)Fq!FWMswDjeni2b|MDGt#jFGyokoSfX}W*r]TNWh%X-hv?#9*?kM%VnK!LbAovnBuu2=_!e)mA7lMpz{zuAonik9{Pf4B0iOt+?zIYbyg64nu:@-2oUZ,c+?xvp;5ADYyD]?%,g1q%/=nn+]e!8*FdT=%p).Qo*(#NPQ#)%)#8e+/DtGVPY}-Y?Vj?Tvd%H4w2yCz57QHoNCUB=YV9)=XF1L;I!uZ0lfS4*nde(fI#vMXl#y3LnV}hMh9^rUnP|MP_iTx1^mqx12)Ze|1^Z6Z5nY*;@;BGtF%Ii?j;]lAgdJEU:-(Pu7wl+IQ3e6ai3HB+Y0+wo1==r4@XQpU7D=ExiG3}a1C,/v*x.oBWAeF8w_;D8VM|K@VTN-}?UwQzPiJhesF?Q1hI[g-7|K=lL/Jh@NCzVShj]MEW+2WX7+?rl*yT:kB9%H92w03bdAeR6E({sahOedtFm1tm%tpuGDGff3bq3Jma-*%af+QZD?:b#M,h08W1=Mn__,Hn!YQ]^.^E=j8oK3JDZU/S!u52d;bQm3BsjdFH]vR#A74VL6M!H,dQYBpuLV#}Bx6-auQE9X.@K5Da4tkPQv/gk(RnI@=S;?W-)VZ=9V1c^15l9|tU*4J1YtNX_YL7YpY!H?RCs+O{4in[ZRH2]rs,ewE:@)HkeE^.%%r/:YKX?RG62T/!Qt-yeGh(VURc}usZPn53o;cUth8+8}e,|C62Ck+6,DF10JLCq3,!O-QlIr.hD4../s!SF/lB5w4SxE!VD3C//C+:4d*0KiORS6bMuoA})H3zOj,5lxw)Gr[tOU/.jF,w{IEPXs*=G1:V_-!W:CNZUA6]4eHx(W4)]7Y=E#dREi7I/%Q]LSm0DIHeK-7J4.Z@w39n=B4P,t0!xRX#?O23kQ#.5)J_y[WL_7uT;U+*bS[O6uYJ;#]%kx^%Ae%|pnNA^_[eeH!bGUFfNCZs#7pEDP/smz)BGTA9tuB.a:Cj1QsHLr+]cLOs*-;k}WHJ6LW|TUSAQdQ8|RUJ3h2+P^[.S9wF(3fbDvoWtTh_BxFlGElXmHjsiEi^iO=^4#Q^!7.Wo8UP_}nM}kEpOWjiP]LE[H9zAeFKkS35V*D#-_o%kCiM2ib]D=Tmn#{PRP3X!s49Coxza_1o.Z-];Kb}1cR-taPoXZ_-5[pEv)Pd|]%Q[od-6^}v7yV(RI;n#!cyxxf__}@9ACOY5V-4mffc.@s)odb3%0QQh?PBx543(uu8r4{EIF[v3d.,*FZsnO!Y7fw;*RS]TJDPv^BwnP7qOu)eqiwDJ!?Cxv==%lfPQF-HgW29x?W/=O@O_oHG]1|lmTKEChm.:cvF2X%t283d@iNh:BoHKRyFN?g46(L)#b3TPiv5uo2ZM+kUK;Pyq-bJ4FwT%+gxb@mC_j-n1ESw]2@Q)aCJ?h7_(X}?evC+x4w2R/lx^InAIW%]Mm7,%Qmt7f;S0w.Qs1teQZib.T1f?2L[(ILk=,1W]?wvt]Y%!@myLMW=;#=n9uK=lse(mM.IBV6M+lx+grRz7jE(%@w@;+7jgweJr+I]ZaXNXlzM!V,pPXSm!VK3h/4lgfiIVbS#|9V?]M}_d+bCF[Q(cr#dyusm-w{L)#y=#l|K!xl[_=wflno)(5uoRGWo@MTodR3-t;rT22JMLI#2STZpU^H]Xp*(a#xoJ]=.Bjlp{yJ7--6b6Zf+heUw}.-z@Oh@QbMJd|5cP1fo!inDoXf4idv}V-jx95ecwx0}hpB#QV*!R}db*t-f?dl:*i0=b+}!60Gd2jfEG(2N-=i:o#,7)DQ^lK(/d966jJ5bPk|}NMrEwAzK-P:ddnbuSU908Ipkr6Pb3N)w*+C*#4[_#](HKR^rUEtO+@JtUKT3!zgk^id=}hE,0@U#*P=wc%]Xm1G5ag@s/E:f2T!jrGlDMVrJ5H,FS@PjVp^]Tz%J/eu_[snZQvt73[5^BF;Jl5gWt*_:r,yI0?4/rB3|yG-FByv^B=P]v-34K57l{k7kHa+RAEP/v?/lKdS@jsG;/2g2B6)6J}*SU8q2okNI,s(,XEkj.r(lwC}?Y;_GYdk4V#9r/p[SIV?7p_@ii7Y}lS2pH#J6.@M^)R]*usAd3Y8)4Xj2q/_8,1Q}:D,HWo4D#9,hneph3P3|7a5e2VdZ|6f/#8qM,LGRQ/wsl^o5[dEIQ:uNw1ZlIpf=e3=m]:;o]m1LTY9/S:CNFS|wt2JfH;(xX];7YV-V%byD*90MC|U;RnewV4q@}ZCdgyv@bgqJ#Y)T.63ja?gmT|b7C3ajXKJ|4{VrOyrVU4Sahbw;KIUPxoVfOG]T??3?QMXIj=bi-Zn=3^X;a0_58,K*jHU3Sl7U+,=Kkj)0D+H9%_R;KnI^S{aH!UqDLR}[4Qbg^J=YwVf2.+bk?Q!tHyQ2/mrDiY/D}q%G4f.T@qfm(-8s3k=o=y@EQ9;nrb8L2h_xfp/XxFpECVOG+7V4Ac%yIMN_*m?,9]))}.FI8S8lc=%Qg}NNto^_vZQOQaEg:M{+CLOwPda@KQ(ff*Gi?m#ga|y,R/jTFB:x/@LN[/MXR*A(T3k6pIf^HfF@RSv8,]w{^!%F@7BFZNW]-[OPBVp%LX2@wWrv4F2WNi1H:ep@gRspvpJv4p*#|}vBUt*#+u[YWL/Mc%5}qk%y/Qt/s_bD{vKi3M5q)6nO}YhQ)mbvSM4iXWWqZ6Zv7W?02QFuXOBZqrzB[lpD-_U@T(M,SKm0qrhcNS*8zhltrznN/_T?lmeW]xxRXq]0Eqx/-PN)CY84eA:88Liz8A;EQZmlL8GvS6pj^)K99fyHQZBjl,h;19/e=7NNyO!A]=(D(!@8@_M7GpH2OhCm@*q/YLXM*qh6f#A}BaO9M/eH)4L]fGZ_jS[O!kjhT*apgDUN|H9G6=r?+sYXKTF#s.bX7^)-=uXjjc1z#/R^kZ@0^KYlSD}ZyzIDxKPED{w@Qun+lp}H63+rZ#44d%NTuN5(*=[85}bfdt7(,+BdhV;SGxL6l(3ZHDs-{}h[#6Ga=vNU#v?IP,SNDFj5UKe1*}R|x9kGF:CrtsyINRSd#Zr0l-NouMAwQ]@8Lx6[tEuul:vIE{=?BDgrXF/b-Ra:^Uw7Qo?u5t5hfQqK/HY(hX@_+JwkZsBK=Wugj{][(xcl/b|+;@d8HaSa@^v]iqz)^3BPWjQQ;g)Mx!u6Zpu_3n^D]rct]M^gyk+Lr9fQQD*=Fq2y1}C7NYO#N-+4{OIzs_qGuzZzWq!:jUz)|agCH1BO)LZnkN0+t6J?Yzw-9@nR^9E#//rgJnV{+@47{*D4*e!L^7shnp0/*ezFgscfc5aMSQWv^i3P)%O1Iig+/0Krno]VGne/AcEoc-*9@bg,+%B.D4vY:cL[*r:x;iCGX4.)g?hS)JTP;3n73gwqhhIoa1t*]hrUIDe)7s{a1p(#xM2V-*-,=??,nKlU%q#vtec,#peYR181GM2#]/[kvK9N:CUYgS4NL_8-d%vrY(=kF^Y.p*Q3SNtI[qd%ajt+SX]wx4oVy(kX1_UX:stI*Qm@LT+_Z0w:4y+-mM0MUQKv;2@U_[ev==hRBo}49LWClg!3]bsZS}F6C19(euLg5Iwqk:6aTDk_xJYJJG,W2lMH6Pe+?5K^=-x_y8UBHfAXI2v;mao9jv^FZ6|1?^@i_bJPVGrgX]@LFPxsxB3gi!qt}r(l)NR{WJ^=hdVI0@wgvCcK]3cgX(XTF*6J5fn[:1x,E:D%fl/zj1Ae:D0*HR_9)f,k[CY?!fdFo6;u0:)Du3e9;LcBm-bZMcK[wPp:x*T}n*/L9B8q!c}N[*BBvM|yJ.L,9kq0^H:,WK!]/zQ%I_x3(^:Yeh5szGr@r+a+)Q1AJaY^g?,?HXSPw?=H%{5i}O:6bN{/5*EX/brh-5zO?9YYEvY]dy.?7Ha0{bV.k!@0,NCbYm-Ph(OhtS)PS4#?[8ak.Q?Ml]RS?0!-pE;rU-?2?d1fThEUb;UEP}Y}wIwnq!c2tP9N-B[EgdGO9n+4YZ|l=:JX0/rrAX:QtDT);T71Yt%f@IO@sb8o:61JWyMD]^mP6CM0%BLz5QiXS_{LMg@gyH6^x*5v5qIX#_3u;+hLjV/G{Ij^j!xmk=ZXv.!:AbIEVP[9+xgfFmRNCriWIYwh{W@Y){ZdUhBSrs;DHT)4B+EbRkohXyMir:Zm/B12|{^tF27:bf_fj*emPj8-yyB1i65)1E2skdiouw%/pv7:5s+M9?6@_8%x9]Y]ZOq6fW69o9GHh?xH:04Jmvf6oF#sQ2RGC+q7l99XFX,Yn[U3G)%6[PVw?W4759a.G.iN.7KLaB8jjL1GgyiK,5Rob7_j8IlaZOEb?zH,MA!1O9M!w+Hu:k]G.It{yNp@5r,hiW/91tlQc8]wp2!^q.60G^DoV.=qA#4KyWDfX81}j]_h#u#FUu(zikNlR!o/]*3mH_WRr?1I,X3j%Nrs3],HPPK}=J.Ou!i1Wc(ZtU^!.qj;(Ue}pKhJ53R*v5y2b]0BV@)F-0PP0#YGkcKq.u[.rNl?9K@Xe5An;!DT,s?i5FG*o=u9k+_Wsaz4V)T[=yr=|c0]M4VyDYdIgwipFa!a9A!A6YFoZR}k-T}J]#yIw_HsRh13B6I]?,NO(aRY?FvCQ7r%[Jblj.;1=;(RSs@)SHTDKd9%E=g_HS!ThTgkg,1Q5B8rMchZ^W2g#_cVO{igXbktHN4bgifFRJ%kJ%1Rj#S2!hPx??w13|,7+s)-RJuwPSNx%E#|Vz[FY0V7?v/nnL^p6e69?oluNG!O*Bo0IUGY{JwdEB?vFL?h/1;GW.Bvq_WC5=[k]k]@dRqjH=rlUvUd:wX2[|gcJMH{)wV6UltQLc+oSb:0Eu/Sq)F#IGv]m_7O@EE]=qsf(64Jo4Pvo7z;k3kkt:(pEFrwhqLayX*0e78YD:}grXA^[]l^Y;@k@Qu_/qU[B]X!9-2;15a;-}VchaMFfDdkK1ZT:@@P*B1h+]fk2Ld^2^r1]+V.IJ?5)x!MCjU*N{HM|Va2:QH%:-4BowI9xqR^Xp[JaRb5u6fU}RSm3v.R]MR5@lSykle*C([d;UUT!8)2T:WfP%ncE[5}jfw}7ylT7T-?@=--VkCni[MuXIoNApEY=9HBbWBC@klnz,q!Z[D-xuF=n.}+6or6vj|:J#W%@mfimla?/,S.uAGRJNEyR;Iv5,t#lF18K=s+loYG!/gGFpF.WpFpjAZT;To4jD1?ZKOh^o)O{YbSE2s9(5ID_:0Pz{fjn!0ybs^R6Tj(Lv9x1]D^PPH*1=rbN,*z)Vw]ow,j;XZsqr@x/m=:(u(]?MO4W{F8ilT5?=N-cgn;Pjn{DG)-.1-KKpe]yUyHs14n9a38M12MCr)cDsq2LE_.Ce.hc3jpZYP,]lsjcgl6CkPcXe5TLVQ@57H(3}#XbpBI^K=uHzL/Fr7pEA1cizFu7h0g*/lElTQe.4.,^kec#vDNa^@XnxxO[*a1}QBmCV05U+,O,s[#U?GjU93r*NQ]CqLhMeGUKaLw8:2q|SY:STl!YmfBgSsUpWYzP{)2E4Kb/j]*VPTyo0b/5L5M_sHj2!wMH+U?{9usE{lDy.]Z)dhHVLBAFWNA_f/UU?gY#2Xh[vzes-Iwjl.LMU3yZr:6Wio9V9*r8Usz*4,29*R_1UICM^B8l]d7]B+Su9fMv(iG@wiu[#H4r(_Wn{%K/*?ZxBS:9)P9i|wPKf^#:F0i_em@3(;6RmCpEONT1Oz7Te.b%^XDkOblvAyO_]o#t5BRSJ0B-!sm5]I7/]m-K3qWNtjOd2EvR6O2IYt06K+Vg!e:58nxxq/-[G-*{rT?)gHJ/.1Z+aNj-tRm%0WV{?riAo-)B3n@a(jiYSIewGnv^5|v9@s+t5FT!^IWrw6H!M68RTjeEr7K2=42XV!HkpdxTP|(@LN.YQA=u4,bNayHN;]QJ+HWT-ATzAPZvMVTCV14?x^S^5ul=cGwp#B@#NbOi0pRXokI70/n:1#.ViB]IXCQUsmU3blD::i.QUH@,vAg^17Hmnf!rK!uSqdtkpH8m8NC1??hbCJeG2J54OsPKxukd*I8YQcFeHmR;d/!xt}tO)QysIDVe,C::POu5:[sh#owU)^*pE:b8b2kXMP_r^JduAdwYZL/wD8oy?_BBoJEoF?wo:oYz_sy=:QmX^=H2=JeJkm[7k6V6w-Bpl:wpnF,=8UA+r?3u[o(:uIk6UyU=9d1TeFwLw,Q:NzX8,O*^q(A},F=Cn09GCtrV47w1xL8xQCC,.sSMAur7;SR?v:vZWN{MvAwR5+}_k/6:-oI9#i2Me,G}+bub4HvW,}s^8I2Ag|PPwdYY%^DMCFefvcM_77P?=!0AARnOVMH2,Iu?M!*UbBoGa/,JQEyY}1%2LclTq0+XYI58DK8tp*CL80p2CX-ZjKmQ68!k:_L7]o)VK|mT[0V45vLMW*DlmxtCQeBX80!r,W7?-6(Pu4a]gQE5u0qB1wq!ihG,]*YmyTJfxB}A8-Pn7V)DMEDEV,CCz,Ae@ud)r2**C]_[T@2,?7*7;bf9[2enHp4A5uWeW|]*B=[V=]jB1pY@g,ymeF:EvjL#ZQb53O)-pRNH-PDiY77yChnfc18k=qI1x4[)0U*oC+4lNHt4s7eI%6FnVFtSXjx}ET2j(T/4^A}5m?U{V@hG,9T[AyB)[04e^HYb2@ha@,O_prlF5Nr*@AZoer9f^LcG+a_*ziA@QGko)hTG7z+Cv@!%=JLlcTNC#hG1g3C}H-_ZaxfsFT*3;:ag{FpCy?yn+}b{t|#|#KQ-S_iODXvEOgX@!XzC%22Bn{KH}*[sTB|TU*|ch%DTaKNsjOAvD?Q*?|EmpFI;kn1csHHbG8/#U%Tgo)O|iy6QM]HF2lw34xw/R@@*qxTcZbeWlhBXYrV]nh70wG,w:NCdGh7/2hZUZR}bD3T7j_dX#ksZ0Kle-Gv9S^7k{YZYK{cB*u?I_8GAALyyI_:gr#(57n+EP=0?}zMlnl{-/@?wUrO0TQQh3vZ{aQa,FkEx]Ic@cQZf]0P]V2GL0SI%eqIDT0h#r1q5o[oj]06ADa6r3^NlLO*qwiX0lgV5H4|LbDEch+13}3X3V}4WZ^]Yftykn;./QVk^;ltJrTkUi,Q}il]^{LX-@eR_xK4q[;GOdYCra(6[?m1/xun?P!SR?YJbl?R0H5Uy(u{;6D+RajCy,inM)6O7.%i^lLL_tNpa9hgT6!C!.YP=4b/1}h:iZ|feyIpcTlSD{i{*|Gp}Uj0yxEqaS6wSQts2*P(DUIF;5f5x)01+p-@(gFiP,wPTkXgv3m#]Oh;v9G0cB^Ov*#r6%Qsj,D%9VdRU%Pp8qiw(PYaP6F6jg9F:j_|(S4Np+N-^4,tJfweNRv7#l|-qA;-3|_O0cjVn^:LX*+0Hg.}k]r+q4660pJLfTR{7oD{9sPHqT#,A9]S1tu-b!s94.ukBbLDfct]#EV#1!OL=BJuZRk%on5N4R(MW.wsikS)BJUqJ2:c/qWzcn,iR)]mR!hX*kNdhY#4@j2o]x=K4}E0Q52*7=NrtZfhZ}]s)J]Es-D;V[N?k/,0a{m!4c/6!?)f3}={7MWT^4O*WLwWsyC.4YwRgYFJ08U}NFg#p*7pda-9OGO/v3B:mWz-zZ(Sr?SMQ9^xH_NGMOi-Rh],,TdH*Qkq#k0?UrRjZn2)B5Ko]J.dYT#Q[XL*aw}O:2K{Cr8Q-MPDl/Zdc]kD,Yp!|/i3:|PS)[xjU_2+2RI!s*WT%_^NzXIdik2Z6Y@SwADR=#,,{+4?2S+LyS+E0:H8M,dB5%;im__7u(U6+.u1S6/fab,R%wCY;QHyO4aP5C=ud4X(@t/@mf#j/oYmW1rtp6];u^T3=V/W5jC_cu=%g@tm?^;6V:8d1rtAn7k-Yx#=1_rShSA{..Z!T?,O?q0:c8%OEBEby1a=Y^68ibF@#9t=E%8[7?+A8%w||;=D3x4+appI7,EJh0ZNTD3sVC8K#)OB(Ay!|e!sUT.+d#b]xk7r1Z^tEdzQVJLEVXX:k.dcLqx[MSZcA7gCA-Z[Ko:-s#Zwl2J6Giu54qwaNOfYkWV7Jo/@?d[zLX5M.qjE@PB7jBILBph4!G2|_Z.q6;ACNIx8J7x9iwi?3A_wM*Yv|+YeFFlcu13,n%n88bMAZTDqO,_yw[,Hlj2dEClJUU4Lv=IQ5bCwihI5Bm7M6Pl@r@KY+dffyAnwO/[uuk4P@]pXhONkPXVNM^C+%aB+glS!F7,j[qBP*0@^0*iwknj@i*7:,wj^E3ls7=Z!Di_8hp/5h{zaCsdG%Z*su3S90TldV^id[v^Z.q4zWnlyR3dYmTEWU!%eo;JbRjd!%:i-Sho_fb.vTtkY)itNgOiXSjrCF3SXMnN#LH=ug4Mo,6hY[La.{n*;m[oIl)rjl.8y*t9m7)7fu*PG8AU=i}Q#(5=D_yet}!3OG-}K;3ekrib.vidnZ)OmLG=LgWy|?vyWVThjw*DveME,g7mnlXZ.BJ;l]JOjM5EI[n:z7.7{+R3mn+,Vf*N@/igwqUPE;5YW)M/?Zj?:Qq6n%,#i1eVqq?Hp79rhkTIRqvwI1EEAeaG-Ri?V%V)^29*qTl?aE[ZV?wYKt}9/mxa=v#%L9vXcW(sV]lpCn6Rb:n7]t{)SoA9it,d0TvgQ9PXED)xHs6Hbo+|DFD,5/9Jz[rBq4P[1uxdr@*qnB-JGoGTR{Zw?WD2YXZrLx,JYpzBR%l5v49d8[ebW2{-)},S=i=;URcg5{5BG^;:jmDIXn}Q_50u)vi%U6@NhF!4A|F8q0.l=/=.%y.Kw%!AKg40PbKQm2E2VR1S^oCkk_X%yX3oQ%prS,9g+0lQeTxinoAy%QjP4j_%Q%lz%7=GZ4p6Ouc]#feX6RC:!x_K7b?mM6AxKc)QZT_ao5K21NfAs*+H;y/rXYNu5c?#zEOTzC,44q7xzoR+%H-WQQvBG{P((NrjZwM{X|:nxu=LX*Dxx1/6l4u|9-3GI.h12-RFs^D=|SAXZaa-qQ*!8|@)G^izC9oHH)9.t6].4:dfxG+%Vt[Ym3i%Y9Z{R[zh_fdql#lky(gF6^f)TgxI:_^FauB:XP:sUz3a,G43_FGItI0+*+SGHjS9A2Cf=ivcW?G:kq2.z1cl+EbkFbkVvUq_)D(Zz(MXG#k)A}PC+nSc=r+K.N(!{8I(wWCr6f)ghut;Sst,G.d=H#X4g..!0j%=]p6%7b_jIXcZr/SZbH:(^4H@Xmpy9=),Iz+{N7DRQIN*WWUm_E]4C5X.25i,qAd9K+N)cEb;|*KpxXU([?sOTmpr^oN-kR.a4VhG=-5}/r8FCJnF,{O!Vz6q@r+{+*F-T79HPNT*r67k;B8Xs5=Zpg!3CJ?*;OfTI*;)%ENUjjgE%6Z]Duo)z4h-OTZ{2DUp)d27xq:h-2CAM[(VhZl+PBAaMH[8*Kr0CLq2dZDmJ_a%EJe3V)(v/bVlu|VZ)O_)jD(f%02gz7^uk]ohb,K.!O(n|N.to}Uu{+qxapJQU/#/UyLdXQD6M=,Rg8a_?Y;r).%Zq+w!98]N2KaFyyC748]*!jIr2Ceda|vbP5Vm/_rBgC)gr@S]KvAQUTjf-1KKl{AALcIka!bMO?[}D+/C8[I;qTHhoN(MqO^[.dAcIWL}TwJKVx,d_Ft:{%?FjoeJz5ew!#|WyMj{t[)O.|5YG7--_?;vrFmXKDSzl5vi%AOEg5EHAhssScfXEco{#Y{]+4d!qM+}8om!:vZ?IMfYPl(vh#SA*Vr}iK0%J:=sw}x?pLUaVqb0.fO(L5K3V^%9V..8HzAtqV^Ac4znO]fUN[BI|h0FM(]sR**S#N%peU.sAV[QQCLfGE.%ea5no4Tn#sW@tA1Hy*[F{pfikzhL(:G;s)gKz|i%AeD,qCw=ZGDtgwZ}+K](?Q7/4c.F)@VQ9XWr[zX7*ut4K9qgkOZ=#,63{R[Q/l7@Df4puqHcC]{9XL|Sva%JR!-p?a#bGkn!?}RK9Em+==5DHHiEV{*7Z#Y*0BR|^X?i^TC2k.Q84,J:WbH,pkO||tW}VH+*Vp[.|6k]/_[!l+mPLvqh|.Hol-8fQ{vv/K6eu+S8CJK(STg;UTP^BQ1H=G4km9D1O8wFsJX|WX!Xvs9sso1gEw#@h2NopcE(PTpA{{2t+Ve4_+]dSuH.usj;chKwo^7DhVAy1D;^XhA6(*,KTo=9oWx#^?0PD5x!N,{Hq/X{5Y/3E7e?uI@(CShwew_,t]_s4l21kyi*-:=:R]@cu-axtea273^RJ6zx*_iFrkWC%H#-JlN+#?|B__HC7Yvg=muZz@k,)^Q{-#QupdJZrG1[gZZxi{SjPSKhmMI5T(Sg9u_;xH)C#Oh2O(=2s??P!(!3_s{w.7dlY*k4v:hAU+:?Wb??N6-%uW}UWKfLq]wzE[R#pd#Kq1Uc7+TtP[@ZtnK#UU7VTH#_@2Y8}a5qlk]#GaK(dDKC/KYFk73Q%{ARa1-xM9b{n8R9T6bC/,-l#^AhyD1vqI3Mr*yU#KN[2w)nwCIG,;4H2e=QB]@Z1|9{+Ytts__R0S?.R/x(-(R11M8crLlys=#-C95{-ISIR-N}JlrX.T53ew(PgUCHYq4XHjOmRus^;WuLKTHGQ1z57#p[5y@OR:sG9i)^u%ed-G2999l*Z4%FnG|93lVO:(p3*rWxBfz18{(k4.;-u=1)qdR0D+hAi_,us]kHO83/gn1V.:ufER7VP-kn-9T7/mYW5jT_z2!)^dEB?pD#IjVPzTgzFn-XPB|x7N?%;KA5dk;?[bLKwZAg.Ia#jnP!9inkaJHcEWmj|nNZe++xtEm/@s:^={oAz(*jU?.;NSY3VBpjaD!{BCqO*IoF{?j1;i*jTr??S_Qc0A+fJwvKvGXq5/quunz]rUDj4[at7*#L/tP2IP3QNa0h*p]nRjAyZ_TlwS;|+jLvE[YAI]zl+jPcx=8dbsu.RJns?-PA.=b{zEx-qc.X^*Wtk}%57kjlhw}WBRfrC/zX{JUkM@e/C1Y=/qZ%FNEqX6w2AN{pWakL-}hMWg,Q?O:EK*?0:kH9E!Qx9hqDUq;Y@miC=bJdPBC}tnXs)ckoN#-%G:+(BScZ)dUQ;X#xNHJ3Mlx4tj5W5Uw99uXiyoMJ0)dXh6hgM|H;GsVvZ/S,*xBKz;41]T+VuK4vF!u1]FrU366?IUO^J,G[ZxhnV[V!T;bqQzM:.{O}N?wf,7ZJ6.rTzjeTJ#N%TDq1pblZOvX,LILPck^SgSI=Z5%hRFkU#uaH7zi:_beT9lpI]#ZrVF+S3]+!68E(gZP9Pxd1sW!kIzZ|kVGhM_I}yF![MKyUR]ecp?Wv_BK{XEV_T4_U5t^*puu?/B,e_A6:Ta|vm^v_^Zui%eKpeosrE(IiWIWo;*!VrMfwls4%S;YafNkd8aG:j)38s._o,6_sPkJwK.jR^zrRpbY}|g}veFY6?Rxa#K0Js}Tre}kkUN[wR|Ys/XDaIJVwK0qB%CxSXoLw}[}a}05BsoF/M/rB8CHq{N+C6SL,V+vf?=W@ON?/S(X%4hE7:iUM2GYZO+lG1:32j7*!wB_TM66vNY!GOgL9i/^)]qd9M+|SvB99wgL;HMOSW/2TX81QD)l{%Qq|/;,YXcj4yoP0k=J{aF/0fJ,GwT]BCt_k*Q{%1QM9)z[WF9V6Qo21?Ep@(vmG8H,gRjR(*nrnvBF{x=]_RR?+#D:-1UF30NM28UeEtZbOP!R5vj8g2L[gV6z)SpsVI2YAyO!O)sAs[67%UavEK*?6N(TxD@JT*;+jxcV1+v8Iw@IFYcCV71cQj}0p|SKJ!^2lB_0D8B3j^Z2O+SO(LjB2Nz7{sQTp(V7EtkD05{kk(i}?,bfax=MaE(4%xcHQt^3[|JJ_p(zf!XFCFZ:E3:i;TeFEPg1BoYw@JFRYWyReS*R7K3j)L06lql+upl!ODSkC7Zbh+;K/U|g!X:bs;^!qaSm^2A^:-wxafWpkDAtW,Z:K6].^UBGrcGEpOC*pO=mTn9E;KTXM,)J?G%E]TWFH{uP6YEpg+(s.NmT-|UB|(;:1XH+%L,*uYVQQGE;k.8-aH3FP7Qb=tT8jWA];h8oVzInpuS@,pie2pIf.47M(wZ/L/bW;4X:2;_b%]6A(tw%3?J]OVX[7?]aXp.,y7NsF=_IyhlkNFLLY_IKLY^=)LV7@Q3u(nS/kq;PdZT|lemUKY[;:VT@aqWyT;VGO5;]xe^p?,/,JK1C3pUe4/]}WNB+hJp]EqSxL8hs=#,.BAy.}iLIsHOWE[/,VU9P%sjx^:.kbBIX%L]s;T,243!p:O-c+_G5eFYL25ix7{;PT9Xlg]r@YkeKfW3w@Vf!,=i.7S#8#7g_9EHF8J^uq5ta{[#AZp6dj78VJ+5+:_#-+FG4RyxNws!7q-x1PGZ^#}{iNFf9r7nD?[ZGRbT-gU{?Ve.21rMJZQ5;r:DGsmGw9pudk1{VYd,;yMXo*BoMd,KT_IIzR4@T_9)5jv%lr})J-^w6jsy(#.9bX_3JN=ny2Z-_P}UJz%IU0FE2X8CsFRk@w/(caLZPsq)ufdJw=Q1F2:x_qiuECwUb%X,o/Ci04-NK{SB0=^-Vku#wn6YHu97YxTEeXzPh,+7Y?y7x!NqbqX*tz_?r#]jY8IE0Sqwxth+DS,Y_:9Y/RU?jj,rxRW6uX[cZkgvj|ykAcW(PttW2MO7Dc/YwhI9fi%bTx_@EPR#un1/waC[I5D#VM%(P9+9L3o4kOCTAz{ivg)^k+_ry3d7,}/k;WWWv)EZxvXiKRQtz(.08fQm_mlC44/tt@k2[#-tM.ZYFOIn8JzzRqABJzj;qyj;E55koP-*{q2I{|aE9C!!DNuBrrU/jA_*(xrG7S=st;j!7%Az##]gnF.j|rOgz^_yO47Nye/^*?_NgFM+e*m36C5anZg%}lb?czk61LgRnS;i#YSs+8Hx6D_rl|pgpmWQ+cWG=JazJLw8RI+}hW#OS(g?=eXNR9.yrQKkRcu=0U3uGld-(d?#s!WHv]IeR4H22dYg;a*5l=%c6XCtRLd^g%KdyC[LaF}!,r-OgeT_YOjv,KYfXvQIDeQwEyTEM(n1_Q5vn(BqyN}69J*c[,JS6#^KaGv!HqcZlsL1;g;{(^;3i!94Loe?zq;#KIcDre!G}gFVG.)9C2vHQXxp%|y0SQ%h1iXhUdzkEpg.4}Zrdv[f+eivcf?^xZjEJ}+KfnuX7k__/WkQEd_-mJ]OY#07HT4Xz!S7tRjp.?JnI]ZA1lAAd;{.:,xc1w((V_#3nwPis4HlflE%CRf.l3S]Zb,C4%]M_Eb-8RUh}FgY9a8OL(GCYy^5=Sk,ZUAMe[=..f2iaU/eg.pc=hv+Y*?=F3PkUd[o8t-]x]fSWktPMrrLt+ZkZsJlEpZ;7BfiX8Mg]0r#ZUz#!SYaiUy:|x=O7=c+W-.WN;b:SeMR..hgW!Nx[7+9f_iaD/a8{:0UyrPyt2z=rae_ysN,G)GBy=0%86O4vH50Iuc^6LUhtzVq{qzhg2fXH1pmC6xM?wTqW0%*RA8;3aapo0Gkp==u_/B8:@tbpG=qtY^!icB}Aal;RIKFluYCC[kQZw#e=Qi^#.hqG%iBK3c_G_/O1)Ogn{gG1=I?O_IUr5GY+hD@H{Ltol%C|=v0SzWu7tH,J=9,S7^m9=soYfmrT{om!-#5U7,#f@UWFawI}Kw0lHN%ZPUvLUD^/@-Mo/YL#EHm/DtT8QI[qKN*8amVff65qhLBKfNGelH7m3Bg}zV,q8+,95V);w72gy40TB/sqPj(fCG*tDl9|;soj7V9.p03Fmf]!oU{h3P@,vSyj_dV_#xymHWNGsvXll%_wS-7K-nDy)NdT_P5HgI}+jSDRWxsO@*P+%L3NG{:RVsI|unQloLX!,%;aMTbS(]x*Y:nh(PJZhhChoW-q1E:lN/Jj)gagBZoZv-Yd-B|;A7ZuoJ_wuajrn:v_vG/UEuG:dkeO7:TEq8Dkao)Jj-YHI0Z:{4z8CeD,n.m98gG6UhBdj!Mk,s{nfFeP8y*M@jaIAkr9=xmN.f%FiXxK7JLSAtsiz*vD]PjJ])jLe={ho(lqQ3qW=qJfF@KAD(Tv[dXks(|MVNRx^A:r/=Lt?#B@tfp!EUVu[dW}_2^2M+l-61cWIY{}@EFYUu%nW=:K;QE7e!S.:Ih^{Mrf9B7q7XTkl6}BGZ-sz#Pk{XM||b7xCGUBV8f,M/86tA!F-qt=7AQ4tazA5*(M|(fQgC[n/#-o154xuVoxG|ybaYWo_1RGS=A)cO#frW+E*g3UiXC;_Xy[Hj]@Bpl]5LKWd3*a.ou4}s3o-+ES^DF]K#jhUKw-p,;DCwr}![pVlkCn-lEo_a^%#+hZ4H8;pAnNF(6U6T]XqCj}={pTZX8Xt6uKVx=[JChiGmlO!nosj8UPFjRMj9;z2d3I0?(TvXV1xv](-LHP-OLiQ87}6[QBNaEK%#ZV*6SUOsl8;P+p,LrjD.c(cMk[Lxtl;0FQE+yOsFW1wL#DY3WesUT@=8lYYd8ngLPkXDoiS7kUKN;s6IlzY.nP|J1y3.]Ckc%5O6A)Mp)[CPuF.7MwOHC,dR9RB/0x)Hf}ms6s(2Et6a[|N;C3]wHZ2HY@]b_268HIC:2Tiw)A@tQj}o/4ddBlyX?m|rIz5}WR8G!ku5QC,;4%H)7WKKJ-ng()1Ymyd;vA-IdJr2{bpPc)feAL|1[TUa%;e%zX!n*g653I5tdq{8N=pYw^bhiEXivBiGX#v^%Qd?cZNx_uPAUT,22/pF,-K4gBlpBGk47HtvonEvwUq5uE,V@Z*RuFw9}O[dwOR-^}Ok.?APJ,wkyI9rwb]?i.#H4fCWHP5}ldo(JW3i%CotqvQozCn;2q1kAW_3[Lx*Iimk:Ve9G#cLNQRHC11f:duG64Ipe2W1tE(O%QQMDpum)BTKyjkF}W,_H8hMDgo;?|k3d(b%)x+TmC9JsnX5@*W_O,D)*G+f6Wzcw3u6hsrDraM[3IPj.cHJfgqk]]a!|]-BHI#qEfY+.a0!N:^Zv64H11WOZ,uRBLG|)6AwGAp)SuVz7dM#er5+tXI5bAv%]7LdZW4!k-W?B_Vy55!|k-6D,2GNQou4R%2DRLoNF;X06a_^RS0(-{V^JXg(DPZipQ_Ic2#w,zoo;]FN7Byh2vgAp(/hnEp53]N|sKt_fL9Z4|8IU^1Cza-LlOW*P*jX=w+d_E|f/BPfV%nrAX(aF8AFs+?W[CETT2IVNIN[WGD@2T0,a5YcQy-/Ipa[OdXjKlUWbM|O?jdu/o[?:jT9viH|oW*N{,C;Y*(364ZU@J}_8GfQa,:#F32-V*^{3B^A3Zi]pOGI1d{QDx#s6!6zX4p6M1SF@IJ56/*BZSg#F[HN8p)-YE!HFm};5TZWl2WtNgWNAxZ@pz*@[On,oayd|?5Z/,m7oBRY3ws!KpaE2LU|sq@;7GAz*PW%+7]3i{kgFd=)xFq9C)yeh-)ftS4Zx=:-0k%3+kDG,9(hfgjz@hG-/a28QT-PW;MiU?*xMQsosD|h-jKa*_YzCSvF?gUOv/*2]+:;#*V?Q.#WB/BQ4-O49#JL0b[M1N/x6BmPgTZx9#k)@hEVC;+,R3pw0*(N?t5V1aJQ7t9qXJEgbyO(BZS2=SD-wjo/Ajo/}gJVeZA0H.|QYD5Riwhkk#5a-6?7]4gHV7kwxb^_r%37fvO4ys{^80(^k2F8pGY?5}5g;Y8505?E-yBiU;co4GP#*qC?Als:W}5DEL!#,:C4ocoY.a?7J/(FOe=3hFpwFpf4ud+0PDPCLByONxIme_:D;G:vluIet@CGQx|OhoiOP^ZHR|P:vgl}NCC%FR(S0cD[|1b-[YxwSlM(dNPxF((^q7td7nq-rmTempXWJXkBmucn=PRz:5qMll9{@!wRU3s4Q-F4W|dJ1.5RQiXD+voSW,8L0tjA@:m4X[BIcSF0NEl0b+I08m6+wG6t60x2}l1J[ek@DG34+qmP?U}W}k5Nlo9#Y-d0BDkD5ke12iDZU29{SSIWPI[S{mn,vP|E1IsGtJxh%5?CAnit-;zE=fYA76?:uu;eCNGkE/Q+s:AzJV|DIFflf;c,2@tyeZz,vU_ky!;NyNoVo5mY:(o:vdr9E09=o(hfJhc;/1#YG3alH?m..Cb4QYIQTW}otsib!?7x4L6sH|gGY:v1;s;fDPO0.y[EYU]-QcJnxIquz[-8oFX[T=]:LT}T_Yj!8asH|97Y4{BGy)%{_O/caWZ3YowsJcffUU:+WITXsP,vMi+sid=+7x9HDYj%kRsV]/sE5=R{I*MQo1[67HjvKW#zEyp1n(wBldCnegF^eu/m!v5HyK/B6:pL}/?u|I(/u+8CIEjqsrwj;WfYfK_Jo7D2;NV7^REH2wX;N6-Fv)|8IDYMHFfL?+v2!do6Zd*gp{hjLWc*gq_nLv@;:64F;v.4cVCO3@AoFC|x5^4e0DSbksjs[};;Au4p0eFxYW1t[@h8^}d?NZ)c6Mt]h.u.OM|2yz1E1o-Th7Ddtp+cdkfi!Fj!e:,8mPD%iYvAulC(mA?F|ciMYD@@IuW[1QNp*Ii}=FxbME!2,g:,ecH/id2F8T[-qMXYX2[?5=ddv!wYn.Z[_UH}b%Aw/fljOM@lAFSfJezQa1Ym(7hZp6niIm%g6]MjnqPNXEX@EVI(d[QAU/ORO*%Iw1.OyA:D]mO;4^y.XEl,?N|pF,Q9U5t.Rg?#VD9hRw=k_S/t*)Oke3XlsGBxF.%b/7M45c:JYs)EH4ffsF?@JYQ0QpI,Ci6zVrFy3[/tWyYbZ|+c*Qn?qfw*Q-WSiWB4BJ%L^u5@+:ZKmm/;)dW%TuvyZ:w7P0j92_LACvANcqN*)Y?K0+g/Sc}+%ZnE:sQw9a[VouFd(gfbz{UHwi7WulyoO_H+e9LGf|xVNtB*yJ67{9o)^VN*VK)]98^f2jF25TpWM^[fU+Fx|^J7TmglyIPma%!c2V#]D4eSr@Rg%^*6u*n?#!ohfpvL3J*2]K7TKR8rmN,=VF!LJ3l4QCdu1G/23tB5ju_JyzGG/Uj1Y?2#X|sh4A8pB.-gkV!s7-)k:=]]9:I)a}P8o53?[jGFvITuN187IhB@u[=G_?lZxwCrL0Lq*R1:L-.k_u_O*Z//;I/w+U;iH(]{+16h3JYl@tfgd,X7s(KcyKgckF05^:7]U:f3Y[H5Rx}@@WF!sXZ66J_J!auvZ/5oxMe:yD2_55cLzF#uI/S?frtF6dU[6@fDuWvXP{;c4kd7)sAiYaQh+Vv4GuH.)37Sohzb(WEjy2v{_-=5zAwj(bF!|co!2{5Td!|t0|15o0NY6+%{M=gQm=%Sgn7U%@v=9kOX6bFZY-}y0mIk]oM*_4hz%KQ94VC4_9fpawC5E==w:tw.?rj2S?LXd7{){#LUd3^k]:jpVGe,l?YK3ODte|%@NmC[v[MeRYAu}nyBUE_VIka]0bC+#._l;7s^B@=0{Y1S]Ty.hUvuzI;!KnZkQ9F;4+N15uA@o;AVFbj]enGt|btGq2d7dG2#R7Ty=G3nr,;Iu%qyl]%?MlHJC_c#Yt[YM*U[J[chr(.=/,!2{A@KyfBM.bJzN*a0lql1V^NV/p}FmoYC!se:MkWw5j=UwMI5uPMwR[v24x9:3.Ri|!VeQcA21JC[OUl#.!n*ckHlbuO@NoL7?V42[/_melhK,W3;Rc99YqT8}[;#+-A=L(5fg^6Qs-l2v4WsVVHedSCE4_xXUst-0YICGT}*@Fm}(Qas5Z5{K}LB{M[2]o3;a*rMsn,z9.0e)R3MHlY/%cUls[84?JiR7nk-ZjVeL2?l3kHriqN}rIuh%)r+r:d0QSCLopu}u@}?h2%7NaOtR)Z{4hIG-hi=-m^px]!g29#-BiC4nL^vqaT^y(e|UvYq]eLRgYexQ7^U1IVh!rH(}]ZF7|GJCMl2X@o[I3aS{lt+G9LsjA}lg;eU+O:8bC%K[T/PK}KmgxfuN8EdmgTS}RQ9CJDd3q9+(im[92%63%LSQ;bWTdBT7if8d_0Fp??Q48?P%B#9UT{q1Xah:*a5A020Xx?+,bE{zF.=bkZJl:XPGA*8|zNtv:rGYftP/w|U^,D9aLNv:!PCi3*g8]GJk;oEn3^/RK_IkBk6=mgWigcp(j/M.VV-kB%!..9iN_dlrfrVpaXN].Nrk3e:gr}z(qdhN(,ioqPouMJ-QLEkQ168:Fic;2^FdStz(gCqN:NfarC|c-0ry=+1w1,OE*[[+](mpHc;A9)XD7vmBk,v[8-Qi/oPptP=kmdcKXV@3}8ky@AX|^8QlYcl=uN^Q68mG+k[[cl8t+F?ZG-l_k@hYZumr^opf8RP2?ht/fZ#H92/o(cs3xosVsFlAZU8R9=7]6YP@*ic5L{wz+l,Te2+Wr.wJN.E?P)Xr8i9RFAof:j2nw;VyQs3EVeP8ycdeDp[0(,JaDVThRFYW%olG;H95b-%)KvVNeD6tDPI0xf[Y3RYy[:rGU3qjX=uf1uB?Dox:LUu*u6|T6j,ht1:G5u,Z:4WQ8SQ9T(@UF6TG}nzA{9lnJNjl!v0jf5P;WJD!t?QOT8ndq=2Y(y=1u2lAATzlD_;M.O8UWFYO4/S7IHO|x;BfERj?7*9hg|s@.aO,bkaZ@@vO#Oza_NNjlFW7CE#E4Irr%^uTTJ-:a+AQX,c}#@k=oi+-8Zf^_9s(LZ3]Ef[C#yOGGV4hsZ%k:7MoGZ#JOV01ek]APW;O4+w)/WW0)G}ey8V^MzeOB0=Fxz7!Ll5n(J2ZL0s^6IHIIX=T0V+idLuu.ve7dW/?+PRmM8/XNsS]28^y,NI1B/di-*a[ST6lKH)nEd(*WmkFyP1@sGkyv(K-oO_aK69l54kSv8VcsgJ!V3Am;w=j|E[J/{_82dqz8kt*z{Do#L-,kj5XY[Z#DWUq|aYeUc%PUz*l-wm5:rKUO)arqg[9HC,,[_4jnO9!0@Zm^)Lae|Us0K,g[vST4#spfN|07nm)v6VP-e]P@4bGNS|bs0rx6z*a*G?Aa%Ol!b3yrVMJ9x{QLwDYs/ZntABSe:D/aZEQZ8g:3YK:iakpW!;b5Jn]^w9MO!.C%/wW3MoF9gwH?(E6C)Dz^/XtfvumM/GeW+Do|=d^71J^5n:!i7M:*_?:46PpmJB+:(2NJ/FBmC[kV#8jT8_rU6?eceB2aa9(qfL8(*oO9u^nffx([h3l.6+gx,|T}qhacWs,,C*+V:J+/G,Z%PlJj9D,XE9nyFe%40@/K_-cgfAp?w|^;KvjJHV96WqIL,mkiQ!_%)Om^SXg@@R#ielHA8;UW4^7qvdX((hHnUNq#htB|6GL1!3,hN(1){Cmun2:Uep?3*qNq))Jh!+*lCiUpV0LJP6N*:+xoMC,Gh,;zkYzVlZG)GZr(cNod=BtZ{o9.{C3ua7pW(_cNU!f0Hl.6kz,Pvt#D{-BVNho0Ys7m1s;mh[}MF0O%d1!{Zt,sFSuZOaCg4hlrxf=Bu%|vP{qzbxMx|mllo-wFHcox3yy1=/;n*iFff)QZXU9Qo/mq2SyOcl/G7]02!JlkI3Am6V=UK;z52RI{lUUev{KM2#Ev+%(_4H5|Lz0B(lsB@-?ef/#%(9E{e(]Iqo-i(Z|ak!}k4HKu5!%sud%Iia2EsXmp_RUG-l(?^{:oCo7z@MG;4(PJWu|=3RM8/k,/{v^]8jL=rdqmlC8yD8cj2XzvfdDla_Ty_hyxLSl1nGPp*IbU=sr}p(x|1G+)5JtDYr3n|U(X3{Y{jaawUKgHcda+}wUHuVkQ(8ga^bMa[u.6]L4j_rKEtxccds73x}C/,sXd2lJX}#2Wu;tU+WZ|kp#?]pzkn6HcYyDs{:}3awF)8_#KrObU]pFD]H:^Ki1:%E1W):?:D-hzKRP,-nCIY:g4vJaFPdp|fRWmMe6zCONpr{VUybhHL}fDcVU6d@J#p{ew|T)58_M/D%uSB^5JNB6AWGvAYm}ABHz8rft9Rkg?!aAa)Os?S2AFlU5)6wzz[45_6p,fLM@[q{4A;fB-W;O)Exe1UX_r9T-UTNN4]X#uh}HXuy.csh:N1P15IQ4xcf5_=QUSqraJiX9ri:qY#t}S5(Oe*/@+[F5241jS(XpGTsn0)U(7.!0xOLhN6Zv]wvjI2;-IP@28QebAEv!OQthMKZZ*pUzEqR=09VDJWf50Sl]!;+4wLuJmIuwo[=kXSz:(p1B/3R,_0kAii[mU-6]%ZhM3Mwa}zK6fGrGX}=:HpH_d,[J7?h#?ZK]m1}yM.;X-mw3nm#tNBxr+VOpmnSZi;SJmaH_mO802PRsIo!q!cenyB2qefxK184OAK9=]u#6Zq_Fk?#EN1DlJPWW2AY)ZE;wY9cQXzwwj-Cb0ab(,D||9=N.r|ZWX_DWQHaM2XZR3:H+oy!RLRzpXmX;oVaO%Z]I:_MKCPetX5{ja;*l9J.EclaAXHsqZ^Bxx/cystA=U%iDy)8B1CUNA)}A1#O?63vMKv,t26kvPE],]2)HC}Z0vOFRC)fD}=W_CG4xiLtsF72uC)f6yieEos/s*g(R8rk?L+[:bI.u,Z([lc7J.})Rj+uJicX.hV,+ws_2}*2qZkS2?u0aV1]!b)/JNG+v6VfmJ0t#NA[,#HfrIYw4zE^R!Xf%dL!d_;K[t3N!!%!8:!PufqdzP]xV}5qRDPm1T.,8mV3-[s_#JqSwjq;zq#[@EF1M[Iwfg[S]B2RToH%(N/F%QS^Er.Pc#sKX5:0qce@o}!R?2AL=*GYPU(^xwaIGJWgoPgRMF|;D_-#DpVPC4CT)*k6/Rj_Md=6IP(^qE=#vFt3m9(BSO7llpK145^i:Fk*oo#W(ZTQivx*@{L12ZqRr^CzAMv5u)fL1O2m-Au%4At|1{as]-nfYC5gcnxq#IMA[RtWpykde1d,uwp9Ru=S_(?2MIdtlZG3Qc/J?fn_[N*fPmAvN=T9v%cb5f#:u!OflYr]D?@RW3E[Lw-1TZ2vY!?s#kF}g29nRY1)+YHhZnY)1adc!1S(KiI{zg?hgyL(@)vMx[nahH4a/{uz{=kLjkSN8oCTpK0:mweASCIHX8*lXP*QDe8JD0D^/iRr_t){KC1-,]EiW=1.YDl!8Pc=X)9%:k076nF42ET[%A/;(9jc1(t2H})!_{ZnEMK2_d01^jE6gx2!%3yThpEEhWAd+FM[(jO;?5^e*WfCw_pHZrw_/1ppddoRqti[?d9.Ne^t%uNOMEjW[amaav?kdg-1hOkbM45?/4H%#h6ByUNr=kp#ATa1G7OCv^X/spVAld8BA11^lgm4,BkclnUCEeII6eO7f-o5PTa|Ktug%i#eT8n),lrrcvX(5+0iSzTSMRnKtQ{A=*fr|JGnZyqxgzANHn5fP_ZV[7E;D)in8C_M4wm.nx=PxxFC^^D}s!Bd:sGiclsB%ch#Io.OtF@Mi?ranVCIAAu_h1alAW@g_@+.Jyv6r^BZirzFo-l@48I4nxelMXl|+ty}}@pGr*J]1ijK#2U(Tu6kaN,6mXtj-=!LTqQdJ)hx453^xnSPR8Qs]3+V/Jcsl]L9IT4)1I{bOwFfA2{94p8[?xP!4ei#uC2bJ#HTCwf_2M[FP]k{Fz93}b]MedH@,UL+Q3II7Xnbok]c+b+6:dTKc^(V%Skx8xdSf]@t),L,(5/:8XW7Nhb9SAGOq_:Q-A.7gIQlqgs0%xd/2k]P)eER50gt=ak@Zux@,S3J?85d8]ZasHcdD,V^GT,plreJamRQTTgj2;:;C5u@dt|IS8}.@Bms-QzyXQP.+zNP#(JEr.CryTH#;:pUFDfRQZ}C//.xBmUgI@#u6KW^V7ao%(lY^xIzNh;RJUS_5rz*e_a)ly29m#zAwWAi@JUpr8g#?t:Iamx-t).2h0Vq.#wq[VHnA=miJ(Nb=X|+J,FlZtwo.i2QkV4r[qw}4Abd58aIgXxlcR{aUx7qD8ou3d9;GP#-u1bAVW@ydSnmTpJT%p_m![-VuczCq5vZim|DJxUuNqk2-Ztj2@ob;C}SxJ{7Fvj?KomK;{9#xr6L!#t/q4gKm-zBo-yIei-Zjz,[z?2!e#FLWa#/m%3v1W9W%-pQ,iMrOmRb;pWhoiE]eq{4G;^m;hHtO^)ty-pLljydvd7@Gy]=9tEa^qY;?vY+8T=B1s?Sr?ynQCzhW4lqW=#2_*c0l[.pG|{rC.C#QD@8TekUW#%[T]l7h^;Sg@Y)00?+Zo8W}]/bYPdo|L?Z!,p7qe[k@pnWnR?.u1JhmNj4D5^dOzpK3saS.C94?*yq8dMHAuq,Lg*QrsF1I#LPtl7/+/gU:gzuIsZ9(:Ev.?jPJM=yH+?RY?I5D.pz)5y,PL[+GONB^k)XV}:|Nhd;F8kh#_}*rnkq]WcB!iA+8%|sE%*GyOpI}7^j}+k3ywdpk]]2usb^dutK5kpxpHJ/:}p#oSfoe?sUlA+viT{]V(SaTBuQ648n}uo1GYn4QPg6K=7boMBh@2gzTnA|oX){A+EWqu=dZB40+lMKp?F)fkSbLtJ}^uuaCOMNW7]m/LW-{-9H1-)ut@/Gzdi^PbDVBEI)C8]0[VaRfC{e[xS6P!r96s,.r}pgB4=3VWZD*CR9W,tRJF/^SpRCe/%Lav:fKh,u/QOiahJHYl)EWx(#hu*(WvOiHmO^A?(4-n?TZ1ztE#3CcSu[4O0M#xa;a3QmdnBbxm:}LeE%^Q]#KckP0gN[2:7Ta*)Yb._FKpOXsqs0[4x6#]E_@/9vv5aqueJc7s!gAJ0]pJJFRL5Ewnr+lDS|8pV|v@k6SNMFGdIQ]QgBb?XmxUiK9j_/Q1.fzGG2aua0P8?x|_W=QHf%lf4oD_6xt,4c0J?]S(cTuc/_.0ry(kMQ@|ZR@5c,FyzezxB.tK(bBaPTWTT+]M[Klagp2R+F!{9IeEvNrMO-irPN-Yr6=8t=%JB4?r8!H7u+Exy.5pB9N.[JZiso@e5x{Hp;TpnM5h(#m,84sNHSRc:}s.GGWIa38w#CZq]LtLIetOIXjXBX!xSyPr=^:NxfgzP{%bHP4t-{05q)|yMsSqtCO?qL4kmY|s!cGDa3R:RGIg2cLGB6eJCf?_fe+TCarZVcrQ?[!4w7=6jO#nx2jRN4VF6s!I_umnxT%1@ThTtY/V/H02w-XCHxR_#78uGx.o/)w84ME^SN.hd0M^TCLCA@sf8Dwd^l-R{x*R3bs(Vyb1j8+OGimQ*,q*pGM^Z+#.(LOB-vP7*F/L8yu+Pl73{9slUq/nTYQzdC2ikx1A)B}V2x{I5;RyM]y(5x@OBvUo=:5-[,aA885I{(N2q!Vtcb;|vOx,Nc;p4T:i2%DEfi!z+2xA)qMy}{^h:J9_:tR+gPsjT.Yj0RXROf0fGQvlnUN0_ItEbeF8eEPfXNr,.^z+(*a/J^,ox7aQt@x2s?y2BMJ@4#x63it=:)Lzh/uHCjf5B3P?yECz3sS=!_}4(6ppRR_#n:tY6){L@%@x.ug!O;%baIq6_|ab75KoyP7K8P#f5GGWhrW/4Ew{8E(N}F?s0Bmr^t0uHF}mdn=0AXhO]Xsd8E_!Z=J%NAW;X.h0aUFCPKfnw-_ROBqE8foe/7kh%Rw#xKv+1vM1hXG/x/AKKBghx]fM9VH*b8exUnew?1b}(%N6xYF,w2*(5qM|9!G:.zP(d_,I{jC8yBf?LR;^L;xFM/?e/:JH+RTr^7pq.p:ZV_J:%ubcVumqJJrqH*ckI_v^DhMJAHu*Wxjx91*VVH._l-1ST;@mzim)l3f]al7S/J9zv?LhL:@kAfKH1q!IqXM,/)rhzUH3#D5,DUN^qicUYr:tujF,=U}ODvKQN1#^4C|I]bEj}),ivfN?=4*6t+ZF,2a}},3Yh}Tl+et6VjMu3YoP%F7RJpV;xpd;{JUi@P/g%0b!NtZXYt1X/)[JnZY3hlw|.vc,4,jm;#z}FK{;-RU!YJo6=oN4}rFAA86+BjaB4.Z!I{}Tfe0/G(8+61lCxzi%gsl/suhqnzfyRO3|_Hv/HYGwMQwmGrhScgHSS,x+/]%_bRboW|ROGc+RV)0=505y%bC8AXswAuhqrz8V}CL.@C2BK;/gE#o|=(0665O!IgUC)*mr#f.]axX51UNHu4*7*#?o_sTukPu9HCKGp[#:C7y4!s7UZaNfqMxY)^FC%GPGV=.Fm[WoWUs2FEq|VQ9d?4xGgxFGRe)N!B+R_uXU;N}WgGsDlpBSmWjJP_uAiCOb?h4sn^,vosyHI[9tOoFD^zIxsQkzl)Rta@]}zje?52sz9,+O9bR/_a?RiwF_TSXPW*|3Fa=U3X6RCH9Ep64bhfXU/3#ng!up((w3;7csVN3%,!}/Um?%q)+Q}^6YspxFIWTP5F(hU,b*S?f5mA1w.tj91Vu!m?*j9K!VeBcm9l}JM{B/VWkjXX.NT%StIDD*zl{Y4WE8eGEZ7qB*I73+@DFS7_f%PAb|kWkXZdK9u7=gP(?BUZ0]83ADO5_HWgsRvE-Efg#m0fV)VxG+c^aAdY_1*gHPdu}#W?og#xn=aQ]gfo4!V}9Je4V.(0[F%#DhC01/8BNDB8iOHzR:5#q5ZiyQzd48@FrxI(=cY(G+1dwWg7Cc|^6b5uK.rQ!BtuHMnA,g^)KvG9Uqgp(178Q{?6zsdS2m,@Po:f8KTF:Qskn,0bKU#[*=fPF!hBt{h*lLVBu+G8f}X(=/gkw7:r.3Fau!;%(9Mc^^(]K-l(#aATp(,DR-GJV;:Ifs4jv0o4CBHiPc6#p6r5DFD@td-?#QjCanAXcOLea#L|4%-OtBy7Kq!X5]E_oF][ilwe])eF}wJ8HvgR^u6ShLey)8IKVMf7-b:-Q![OVYBqI,cNU*x_#p_y[RS*Tw[DNYnBjcq/nrG5g%njWLehZ%p9::[Y!S|rD*h3hX/m|*-PC3g?{!bn#Ru+?jRXyCWroQhuiQRv@P9a63Fer6a!O)DK+gzRDdrrmq/V[^-:Nd8^!x6K+drnUaybWZ!9+MTouQ?7{:eQXr*ryslbo]dem/yJbKUKCeEY6LD5mTIx8c[G;s@)HiU%)]AMM!KkkrEd]Ry(=:(YeN!AaRGQeLx%_Ik(sfr#6.I/_h]cg9VHViw9H+J3GS951NK1-D5e^um@QYQWo^ig0gyT4i0]lf!)_HY^elBtu2Rk.OdHbj5P4b-4/i@]dpRP@(]guetz-h|)%c8/SdK!@O0xdGw.ALS8R!^;E3n2d5^LtE)8lLYpk}qLzPi*7az%tqyr9.Q#A(d}Ncm.v68]Q[;vQo.Q/G/(9*3wQm_^RQvAW*Y:jG_HRi-nO^7Sl6et(*U@K/!7UWQoBf0,TB1LGZ_S_K*=o_Hj+M-)-NJaMiA|JT,)wzXLS[!E2T,P|(hSpvl(jbyo+4nX%%z[mXB7n99,VT!81XDobQ#-Lj{QzAU48cKO-tY#1XNVJ,o}{Gfk!xUDlN{afqHq;i5}gAewzM(G0v;/!xv9^OY5wq8?Tjgam5z4Qp(onrjKb]X8ZcmdXxV1KMI#C,h=nRuuYF^M_Hwv4HXv4eCQmffNq#jKe#mq29A9p(c96Q#2:lA4,3)@aqk|4sH4@l#fDQFu[YCug;I+/Gc(Wu7rV7A#=M6zOn:P}B^]zcaJ](U4Fm@)Gj==hremDVag%*dn_,2;Mgj_x]D3AzBJb^eLMD,qXN_(a1L|f3aB/[o@P8#!94yIqszIiIYf+vfjL2ZF7GdEIk@nv:XNe?un-8VlHEu6Igeiz+I+XLg[}kag37vuaDAaza^d8[9X;#RY7:yqp^%POIpX3T[Iib4_2TVUkU{i:l@dyuX][F,BJSzfDIt;H*zH!!jexWcas?-^YfcDkG/E.tA*XnW^kMm/H2^DmMK.iaMJ#F;OwAn3Cdf:Z3z5TXtkD*kzc9_y;XLQd=D,J-B@6xl+djsK%FJnEjX:yV/8yR7t%nd,llyXyj1IU8(8[Q8s#,WL2/:Hgb5cwGzg0}aMdz@_T0c:qmtU*[=iL):dOh3kyiA=SF_o^FLK!k6Qd*mb_.ejNtLcIK7mG8moP9+NcTF3UAPddbvfN6SK!6e5OVGFLnY9N62Bkl.4Mws+_wbh,BUD5lA4eu#GA_=rv/RB(Rdpn=t:vGnejH}FyX},fr*HnMP,;gfiJ%7LVN/_=CC9ItTJF0v_O.S=/[Yi)f*O22g72TdZ;btP3Laje[gbOd+QVqXMeO9TGR5v/A*!y)s/XdO^,u@xILUPN%Zcu_6%MOnlRV,0oGIblV.c?@Wg([C{K|I#*t3opI^)SLMCner=WPgx;m{anF(mv*Jo-kVi5yCUM3_ys2/ELLfYoaIyq%k96PL^M^/_;0[qn{^=D](02M4.)HSzfV^@1)TbPQ8Bu@g.D0/x^Un4.kw{1c4q#^QT5^8VL?:O#WCOlOZ-__?63:DL8:5wflx.5:j4k5hOVVeOC#MMXmvl;}P=k!GOTpxV#e?4|d.=Sfdd{sK%miFc1#HNJJ6tl_?_YA_^(Od@g!}lZ,E#S!3gR%b[D7?0/z.x;6),fS}ONp)GanO:ZEI=;%w=V*uD-Bs2eC8:Zn=twSyca_.b;.05Q!=^B+ckNfAh)ky/aG]JQ@wZ2q_c0|AA4{S..:z/)Y@7YzAsud:ldrRT4Hr=Sz[:*9@_Cc6.2kEn/U-z-xmATqg)Z^MUA(x@h.@o;#dnOEon/{%Epc[693esO8BQ%RKUBwcF_yyqh@mmvw,]5CbP,e3jK7(38@q{M+DdoRSxD%.W-{5HnbN76D/F)pDFHQh]=@x;FP{j=0?Sjpah|!LnOT1wU:L#!{O2Y0ZJCW%.c?WYZdSx|5d,nQ3HSOZ9c*(n!b!0/bav-j4mjl0(Y;HrV,:O*DeGTY8k99,0h}U/ez|{kBG0WFUz1}_@Bp#q(PiC2t6VjdzA+kiZ6bpoIm0}dqf5VI5h?|)7oo#pO^e(]D%;q@{F82nSF2QI:-bn=1[HlVlL:R|@Df/)V%Lq)=h=e7;H-mkAIAG*4Hm]@?!5Gd[-i5IsS:0zzVSrv-HFN,qVD1I6B55XVQ@2NI1Do#E9HyE;),|Ru.l!ufaF[+@U;ZqK=WHM,nyNL@L8n+WPUc7E-,Wag6qrh;:FZU+o2F)u?OIxT8d|TY_.#:ao/RZf=p_bj*6,EgkJce7-]2YR8@K-aCt@UkY6]8K1*bC4#EHM{tTH#YV=IJEIpaYgm(DNcA4oEieRz|#=rYOU:r;w*SEY?+USdy{MaBq.L,@E#-mJIfG]*jH3B8)nCja!y!7VHt_5@mu3T2{y]VpC6,1TbjkT9}!Fw^rC7+u[AA/}M!*@(V1q/8AXPJ?jyMD.rn2UxHNl*z#|^Xz0-lw?*p3o5m@@.u;u/q[4q^|-oT=jeofB#)EL2aDCja_.OGETXR1dwq2[Eo+7wVQ?z;fHIu)zo#7v[dEb+n2RhC%?[ZfqeXfPNARdXIDzEAc1U6:zDLd3,]Vj.b.IE0o30/iQWf-F.5H?8LY;:GXEIDg-n-9f7*M0zA^-#2YC)T]3HWu*SPmg_:lv#NXN3MC@q,wm-;qOdc@/a3T=ZQlHN0)PpjtUUDK+FHDGcr):!D+mXw4G9p/nr/MnOTl1q^vU5q5XWB]2YOUeUTKGTsytQ(pqPx5QT2F}#D5[dI508d:IYuB9aGi;]xN1BEvv+a6+l6UVuz%gyM]kEVrWF0!)Di,Kmf8)sFmjN:oWcu#o**Jnn?nt2KIT:1G(qHZ^Bo9VjA50VHr*AbU3RF](=1S-6:)ii0OL:G_xaNh16Er%!8f+gJu3?tviOk?u3q[f8tHk[wrp5w)HB}VZ4+II.[:*bt7JJc/2(??,JT7G}9P[!e:yz2paxA^(YcrVQYfaYKNvp;?SW;O!F;liL/5V=QdyzDaV:,|T*6,d-2.0;%Hh]]FR0n2@}d!1|Y#/xUG78p0JP0UE!sY)56m]BRQhZEC0hK62ow+NygYR_Kluk;6n=@Jnb.QSdgY{L)WJ7[SYV{C@35|^Kjc|3=s:U2v%]!ZvzmeF]*YMWWxAaKhne@ZfsC6(b/2k9*-32Xn?V4TY*y7m?i!yJ0c:mr#W0jI=I+Y#?3*:N{iRvmVV.y#%j+6b81Et}:2T%EGms)X/l)dj:oIEVkM*%:1NUIQh|^P/iss*mVnWg_F7Le-YJs_}AMZe}I@Z.vYc)|w_E#D=%bSUT.Ii*u1tpFWO8]dBnhLVJnSol%G|^*j/c!Tc5GoTprV^BH}MfAu77LdJ4*;V_O72O}x|{%PMA:q4ce:iv:k,?0cMJ5KHp@.udt+K^chp.C|6Ja#nmeZE#Zo-BgvGP12zYCv(7Q/X,%?=/:_/%u@?CPMIw(pbryWQl@!y!1FW@uur_*VgCZ2+DJi#YOiqS)gU5Gs+}XM583@HOk{cC6cny7bxJhY=@KpN}%Pi+3iiS9map-CKtQ@#TNXbTq|X0%cw+aV#5h@Y/ywGRXhv=[G6+pauX8?w9JGlO7?ZldoKHv;(MJ*f1PXZYh_rjG,6wmo}k=AvBhcwZ;*vy1,NbB#:?JnGjpBHjO0AE8Mjuwmqu.K%(;}+:kAre^dtHLKNEvKNXCdai;xi^F_oTux?X9J8SAKPe2vl2Sr!=bHyE}a8?zZn68AsqpGC:qw!Xp-;^MSWHZM]YEqmsYs=2+[/#fM5Id1uQ/%lnsNG*h^XptG@[2/D4dk;;?D}B7TDh9i^9HHR,bF!%ADi9/p;h#M5w8(C*s(k1_)5|Nd[+JuLr/vEgl4oWj.1,{n,{zX%F{[U1:vNv:%/I[v1,Ik3RJ?))vh:C==Zxp*fl6,:-^,%LsWo@tuwAOWFtWQIZUM2R//,noB[6Imx4pa.iv}81?gO1^hHX=JEv({z8Y(H82#?eu*Isjt^K+.DzfO_H:9Qn9WKC!iH%Zq94NrOL@f[u;V1760!RULK1qnli?.*LV8xw._uGHy=oePGvXG7EnJeTt|g5[HS;FlSrqLr]ab;}#9c4(sBOGI*^^Tmqi0}1Vk]a@-Ea_HJlQhyfclv3AhYdxgu.z8,:ZFiI!VI3CKOQWjI7Wdo?)nnH6!2_s]!,]@,f-(uGf9uVeugl=JTPzW[jZ*w6NP}kk[]z@S9PmJ24l*uvGL2=OQ0NZo[VR+?=(P]gRok-TZ#XH([IdXoN3|gA4j9OeSBEA,%R^lzN*BMs%n8Cpw1)X@U++k!1;8Pl]Lg/E3SQdbtp331ckIeury)zUw8m;vts;3oVy-u0xY*Q-(zTtc*/EP|S,z#s:06(MF=kkZG)U}ppjxRK[IxW33mpZE(cV_;HR,8:L{@]:W#^s.!4ErmTkN{h[8J#y4_=Fzn-Mul(,Um=zNwa.*1M@1*XZpRWVfVOLP;)Fl3t(]2+HB-B(!]*r2c*KZaZRm*BmR.2S]*f!HM[.qiHd9=O}g%+Vjr.Yre%9L=#c)84eZ|#0?@%_K4SuB/fIwg,#Q9(Nu0P74Tly)evB7d2nhfF1=/y7+{6swvAVAoI}(SEic%azgq4AZ|mJQ%AHW0n0Ya_DXzZ5YiYARMjb7ZdI]*)/kP7F@b/{-^rrsurDBSZeJdCACp3U/L_t+Bu]-mzPU6x[:z[3H%J%.a1hA|A2ft[l;ZAUHz@F=kvH/9ifv5|xIh9MHG,8!PG^g*k2,Cc:55;%#;b#.)#Pp:+]]qYe3qi[NX0g+rxsGDFyEv*0dzW/hmC/mJ,^hA{3biZ_KjN4:huliGr19+pS8;Ks-mXVc#Tx^CkhIQ}RPc.6b=A*y;d}bBcsq*QAWOV3jsjZaR:%_BnzDmZ(l(3c;ABQeFYhWc[0S*@IMQv4DIny6ef.Un7;cK]sK;T{lM-nMYC#t^%Kx%)nHvEK/!.ZmU2j60fYIf1+H]ggEHZC%5+iT)H+SfpS,cs:uV}M7@Mnsu^V|sEsh[#)FBsD!S9Si[55I,r#d+s})wEaa!usDP{!6ONPr|@*/7i.5;Z|q#]+wPaDJ3QCkfwq_/jNu=Hj+/Y.DC|Wn!evz.Om,|MbYyu=7Dfi]!2itsI-?=4IO}ie}qW*l)v6m97o5MMee2j3O4TZg!zy6kM}|-0:73W40VyrC(]*zbp|X%Qk=3?K[*(1tND_;H]+{p!9:kNE_mo1ka*pSUn+u(w4FHjQ2EL4)2^0vC|O)1l}PlKO}EjpPCW+lf^KCi{(BRe.DX6)tTF35#wf#onLxS[TG}[sdNAy5AtHz9/QKh((fqB)*ppm%HchoSVG]!?/]?U*DQT/WKx6ArR3kf)1^G:miL}H#uU4bpn/hFRdcLq{rh3==@76yX7dRr4K!k@,-aAZEc/E?a?^rQ?i/KIX,G}]TMWH?f4f?s^hX4P%,AfU[;Bq:!x50M7,Qv4DU:@ip-pm3lF_xuuv@WT(q#t|?gP5#BUI=W-/H81RDV6_2Phi+u@?/N5_?-hnGW2_(twG8tO0O#zhmD6GY|c3zwan*HPUi|]FC!nfkr9M8!:ypeD0-.S5I[HH(=!|:_rXiUBbnUgF{HJc+Eq*Pv/47ZwI@-L/*fj.h]@pl22cJ8aeatw9v:hVRLD=KFPp3S#|%@qA2/+,G}wcgxs]oi9D:a,+3MD%m3avvk!g#4.!_uNNm)kf.e@_5=S3^GVERyHs,XZ=n9QEk1ri/IQzzEGT6}OjB:yH|8*8fM#mxp_XKt27g%%;u0TOrPnNkr(^1kqvss65vz6!v/yt8idHtIu^%NxiEftO{,9B:Qf)m?5c,?sho_/DO#Mj(rlz2}}?scnsjF-IDbpl0-lbE]QvMd6G)[?6m;O]}rwLIy3tbr}Qad^jtBuJh_L)hQ3jFQZ.Xp1j)XH:)clw3im3zKmKMV^*1?R2iN+F[OU^-eL2)3HQ:xteHyG08EUjmq5iVidj1stqNT!H@wwM-Agx-!F|oJWaXmeE)v!l2=t-R4lFwr8hGq}FCX]ZLd(8#ENmT-oVn^0n3Y=!R;D![2sq_08.SA_kjZ.-Co?zkmTdr80-/aBAMHL.SdChs*fr?sp@h{)O,S5ZM#65%GOsDoazJ*lnYQkY?Vo-cV/2_jYwmqo1!qf[rOPT+#Kf@_072CBU,*M-B6EMA+eFo{JHG3+I11_;^@NY96e^FAR9Yn/)tg2R7#|g|3Tland|O()j0|r52vZ}qO5CJU%Q1MkoSg4TAvP0oAZx{3m]vAs2puoDkxEMqOj,{UzXYf0i{9Xw67]fHtSKgtvDL(vU?f(HtJsFWxRp/Frb:}plMc4a),!l1Dv*YuM}z;ym|gKNV;F;ggm]Mu-[{BmXlUo(*!WM!Ti!bpSmG_)4cAc8BSWdz[uxp,7g@0xsH-tsXSVO:2]3N4eYM5QRsJRz.RRA.LkuwdjQ4y(*b+FvR9w^,FJ@Oc0gVgi5txP,:R?/Qw*X+DDj,N_c=35;])etqw9+btk%k?g*)U=m8|]w_s[c[mAd:[9W,JA--vn.68Q)^1vqhK:.|b4U4+tiop-^},6@DkJHAYQgev?(JRPF8bWxVAAT@oJxrK3_CduxyGfa,vTsLk,]:8-Sof?;7GGm7BY8E?l8a9xS.pFONbTGdB9mmUbbH2B!7UYI-kAMCb7%WQf%E|nf?oDNPJrti@J3T)wySGG/E_k=80TQ*b;7G^+#qBd5zr!yFITe*N#.{Xwt7anH(z-%a(!;.tClpf?7TN6CRFwW7pJs0{6I/ZRU,WVty=@,tDj7K}|Yv[{i+g3i(vBSgkw=BA[;wKKN70Fw%M2%2pJw%Z80V[R62.S!Y%*X5AD%D,r)p2UhC6[xoYK)lE[_KPcah,c!Mk#TaW.zRUAl@0i4p;T6x*wz{GKYs+EN6W;(iL_DB_=MuC6s;t:qKeRHH|ZJJB-hU5+d?dZGEB|@nO3i7@fg36S%goO:hRsA/c,O..VyjJ=O/i4Z;xQ?J2Gphfei|4?*eZ+^uz^*-ZoOq}z)-;gNRcn4jb-*4Q!)%m|mMv6zg0wH!5QCVr%^%H;*bA6-}iXWEN]=c|!WX|3NHKN:BpqzT9NT_3%S68G]/h4gODy;jYZHDZ-l!]{NjOaYqRuE%,5^xVn7+e]0}[a=J@2v8A,LncUa4,,8WLKGH-mqe|Og|G9Rz_XSRq@TZ:Sv)k0B=?jW1e#ARaWw;YeX9us,{qoFE/OkqmELKnejr-0[zk.HXGxoO_S,@9,qm98@R2=+8#E]uXsCDEHD#)9tYsl=(EtiIHuAi{Nylz8Y*}.0LXuE!T)[V)68K{it+ka7S^Zv+b7Jl[cc?QCnw#d0C|0?C:))Fv[%yL{VcsbEQwPnb,2jeKEsxW0ZtsH*=b.Ty5i^//[%+nvHWpJZQs?lJl0lHa)6a:,Gx:])V_#T+1r8T72[9Lahi/9|DNPyifmziJl^KXZw}TzhMz5-E72e[^xVZ-4@AiW4-K/qWW=yaw]H3/jdV5PD._h,e?ZD}FlX;19S:-TfJ6aiS)eFx5V@![s?sNq0cI5CtoDZ4Iqq]_6#6b=?Ki0v@85,=Xc/gBnwA%}rT8Yj_9b9Zv);PLC-fq*eX;?[tcGar;QA?W6g4D:2t9tB5Mk-,S?m(I?]Rr5Rm-@6T(Er3zmX=a86qqH8k7^BHs,MZfInT?,%?#WW-%[e{IphJRXEP3[a3ojDR/:ZpVwP--Sj43u#Mb={r4E7nxa,fH-QH)tr?+db!8cOo?d=jUN/V*CpxbVkbG;0iBkDss+/l!#3*MrB3Nx++7}7qOFtS66c8lrY)I|1[HPX!I0nFiHa}PgkZS(iBw43]55D!qaS(FTN4p!CUOc:iY+ck.fdt?|wE*J|tq)X.V+po3o#7tG/^4xXF6}^kqE6C3W-82]XGXBMt2tsIe3:h3F(nCh2f9*DWZa;lv;#21YiFY4)g{PrHq8.UBQa6c;3_TjvlHsTXJ6C5isA^zb9|3M}!4uhPiAot{,v9V7mGlRSj*/l3jCm%hR}rpgJPxQc4mzPhpO9:xb|^*lVK@vs(PXuDQwAs7JNdqB=NH6TS{}=/ak-0GrTrQ8-r[2[ZfS516z%fwaC0lT:M({mFSN(r9/+3MD(*sTIzG7J])yI/-DRD17/@87%9U(.S/=2cDf[n_:b!k78vuK4[oKpvNG{4WXrG6G0Ww}!SS-e+Ccka!P1xDhFgIBq?2qYXUL]UCCM(-1rZ]U(Y}M3t5Ib4Vm(Ku.6gu|5I%K%T;j(|MBouU!ju=N77apMCX[|yNxcRM1fL9_10WM*1#|w!RY|DD{.Y%*EP}6sB*Knj,Dl{X_9O=e#ghSbmtYCf_jNFxp,T=ZBx[k-HIlKUpl!QGIJu.[HcW|?VmEHd[4aX+tK}L:|4H-D:gDVyI3|%4Dz-t6SUE8HU3rdx*iWrk=N8/iu)1xH0yOi|[pBqGYbvowK;Uexi]Ts(K@m%]tffXERDwIF^;Y]%X]m*q=5?-GAs_|u!3}}(a-*??8^o#.sGN=FfQ=e#+.wp{(0/p^%8Yu%mG]*_[Qv(VexpE8uuc80vTA=G?ENKfsFL:RGSt)nJ^99.3(XrN!ClxuvR^z{?e{if#9_rfek@c,mL?Yr]vwO.KSSQ:x9(f%P-6JuZPvWjKu:=u+mvQE^2xjW^htHI/AW:%}e??-tbTm4n?iW::%[WTf.1)KBby:1SHmIjk9MCrJK;!f^-jAWl/a2-oo,CNQ,T.etS4K)t#84%;Wjcw6DyCI(zQ4-j2a4f0bEipcKA6I^Y(fb!a^mGUAB+3rsoZC#0fl|6vx{rnjnlO6cId^vZ}GWz4^rIsLGW!v2Sy6qz*IF{qBfT^274}RrHlY(Ks1%Dri;LSt5!NZ4z78[(:F%9.J]g0sA)3Yf6SeC@2S@ATh)z#;Vu4[rvSdGRSZ(5u4G;uKl=BCzDQdZ.dH]8uUy?UesQ_X:;}6^mc=abrWe_X!s|S9)1DXp7Yq?cHvPK.oXqkJAaRWPmq,puw--{-0]lm?nW@{3W%(jfs)U[,T.B#SHgr,0qjfkNofAMELnX8_)fw+GzKEk5H|;K=nd.Jn5k3iOvP!#U95@#QjlAl@t?ACH#tx|nUOS7%aL_qQ^M=@)?2F?[Vc@P]pQH_R=gM{.#x^A*W7}pRl7sss]HJEV(EgK*mm(u,dz:Ny=fHsCOL^GC#6gHr*a^9va=%HZ,CH:!lC(r45Go|MTOOyIAeL|6[2;p|hfNjr*upXVUOJ/t_49MTySi2i5=H%0]4(#I+[9AA_stoR),(]H%+;-52e*f[2,VT5GUG/IPMgwN[%#Dh=J^DqdUK?OC47MU:b,vlF?rakI!+KJ]B[|Pj={MIRP5!tC_jn^W(p0E?!_q;#vjJejl+-JVqusoT#c@/Ey-J[=Ij.(HpI_iHR!;!CSV#LaS=Qbjm}7CTFb}jicwa#:-^3?9P+mbbkt0@bj{{%.8NU0-PX%*_t2E}(U2l(50LR2ufk.2(isWo2BvevK.8f(O1N;QZV4gkwb{cO]]wK{g)mJJ=WzDwtxS(/7x_*i-0KpcJ*LDLPn}G:g9^wN?AAiJE(imt-8Tv;)]l@bbQDy9W)kA5n%FsHN-6AOj*08=Hytm?y-PC3Q60HT]0E5b+pi;BKK}u(@i,K{7yW5zkv#-,8t#5:EZ8U?;3{LTHm,7d0y=^YY@Q:O++dLNK)MBoRd,ZL9!uswjb@I9LWrX^6,9cwKdst9H?s^mhNE(2hZDShjH1up@yp3BvvLJwz=UF1ysq=1VYP*XhDiPxt]ofP,3qzToLdL#eP@q]clZS_Ey?#Dte|Uc,2D,DN/xbB:Ni0+,Gp#@_Tn2};bR=mD7|KLSfDikVhxMO:1Npb3PKGdY_88oUh+J3xP,[Vd^A0nk=x@suTVQHOU=aRZ=|e|HLHhEoJ@SjFontohLz9x@aP*wb/*?I6Y{B-MJf=zj)Y3KbFgY6,hDSlE@3BU(2ngC7_ia8be_(C50rmWj?m6VNYg.:7zs,8l;2iL,Ffwahe,atoy%joC4)GEE53RiSAD*7GCOL#qKNej_@5fX_Tu4JM%leQa8c2.AH*u0ifWXZdyD!fcE8-)#HZmq+WQb}G{24XG9l(UV-{TvGLvRdZI^5oJnt6LYNKJn6ZZ7#L|B{W^}?Z,-eBezUY-d5*gXCWs1uaS,v)h]GEZ^]0Gnqr*UGB^.ICAIs#UlI9zTSGM|b#|nUZ.GJ9D(^9z^(p;!,x!Yg#-)*UPKKsh1#eZn3,tUP!Tz0u-L:#.F?^LT8cI/PIsEsWemgL/e+f(s|npM;-d%J@#o|L?F7i-7er09ZGbq9o],g])5s{!V6MXLKB0BZE{0KLZ(mJ2]h{X3lIdV7CiKloXx]yssaYFCcI_msYkv;)LEc4TCI2IkzPpv8)PRd(3Qsun2:*%+|%shcp}P2rDwW_p(6cC:P#Zo3oBDpDNRKH3Rle4PL8uhgq_DoXGEt,pk_P*VVTShZ+cA=r(o^pkv0KR(q,@bR(mayl#ZdnPpIrixUv2l-RUFJNrGseoF:6^t_OZ;dL(r5p:nc^(2-|9)zWxl!=Zv)f.FhHr}at0w]:!@J2t6J.AB7:eNqxYcM{D=C,Gz_LRC%??STtDU.m)LMI_YF.Z)MqfD87BkzI=.);Z,]l*s:W:0;dxJWs3C*dBSo@C,L9IQ88]!Nf?c8|kCLZf1I:MJ.1?Num01J=ge{ZTl)5i5}wu?cgoauynKO@81d5-rfhio;r%zsdm=p?ajs*a2%M3o*-dKxmQ77Pw;A6sWGJCMl2GM)if7Ir%hhAAG)oDjn7=*f[fsp(o@x8v%3|fdzp3hHIlw5qeHNp(/iD}[0Yi^Vwnkcs9iCU863*{)6dW.k!F%HfFkodqdX:%v1no))ibmFi.4LM.cmb=tHM1I;v2RS+g+y9WcC=W!=sM8T/eO7Kip1Y@I8P)4WTC2r8kpz?x}r}p})anHB|(OqeWO41,QM82298bfB*_xn,L_+/|4iw0Nw,Njl_]RH[i2qp@yK;t5bgsf5ki%w4VyQRQ2f|#7KV2Z14bGsBH8vhWW:F:26]RsEljS5Hc_}Lv%;5+|{{aFVj=h(q#k!ZlVzI.0hbj^hf(#rjjL[rlC5Y.z2:^,_RZ*j/LSjedRQKDbCc2@sG7nK:e)]ULrsa#^ULe?1Q9/mr*^Gp1D%AJEvpyuuKDnXxEfXH7MrgD+V-Zl2Q!Y+#(4ZlQQhk#8y*u)|GK:!+XpPk4GcoGnB@1MM6xJ+(+k+?|O?OP#x^r4EuuR4GjqSz6th-Y!5@{xVKZ2[Bf}e5MmAq[,4h6XFwBZ*BaEW[!;:,O,t.2I[F:0@W}K1Bx_BU1t{JSY0IGw00%:D/|fNBtP[#DlCGI.7O(m}4A%VF!PFTxZK1ip@Z3eY+q6C+Xmzg;z%+n,)#6Aw;l@K}x?%^iw_iqCv,T5!9I?*U)xHv(ED2zl=m3MKKS@%hf4.H0NVj+D_H-;D%(tuCh/xN++Mlu%Iw#K5!*LimULbi]1=w8/Tt-#+YD%CL4JNJ9I}.K3FOthu#/MnpgYS#I[?.C]MrPIz#JqXD]UnEi;ffQFV:MrD2IM4)3yJ.5h}*J.,MmV7ox3uaW/)On:Mn.CJ|zZ)+|:B]2-^^Vb*d1V,KyG4R@.fh0w/f=+maVq;DDy2FyF9KSuN?IL%4bIk8q@#+|NNNwjsiXG)a5RnQjIpR/{C#[{C;ckQ2v}GRS)_dWyeI0Qg*@rZ;gD=|FD)Dwz/T5X*QNO+v|q:Htu@j9(_VB+.tZe4/:]5:h2hru2*X(VAKSR6w{iV,SsXP{Y}!j/;[kkZ#G:j?Im*wG!(7c94dl+3gM,wYG:JT405//^^yM0?%!1:*Tn/[Iq7F*37Q)-[hvqwR+6X8FJ9/:ZWJf=hnV7rqfYQ=rjaf=8Jrn0*RB^omDw!5^FbXhFu?w@2),b=9PK5TbkjF:ZWPh=kG:QzWEKQ[KR_q[pCiDRIv9n:ZW]l=OD%^(1_]^]el+q[}}mqRIqdw)O*Hk0}zA.BG?R/PymH3Uj}*i;MCcUd{h=1H.|Cc(CYQe_[UNKvD^=az^#0gn?%d8AMutkA)!jb^boiM94a=B=%48)=@,Rp2DUQIRU%e?5w0W@]rE6@ODOT!)AIsM0w/nF+{aWV-[g{TlqEmH;,W*bo/DqmACu;X3Le^vby+uPR[;AQa4h=jP{CjX@_uDjZ9(x3Qptjde/U?@-[f:,=sVr/=v7KP69Nz=Hj#r9=:?RztcsF%;w./-!p_7}e;h|(=I=J#2bmVL3gkbxt)wOKq-Af-Cz4H5LtwsVlf@#G^b^ZLlS#RJfw*/!Xlj%(2@40IGfdocH44(C8e.U:O*dEt(J:(9wGkGpB):^{P(y2}lS)vUfw*/!9su4s+_-dXFl2Q2c)3a7Yoeu295VhyQSWN}[cYi/^oF]%?GDsdt){fpq-@-!CvroJ2@/JN12IIEh-;w5+2,!%^%GeJ,kCn9E8Y9cm+4fj8*d##A-PhU^iXOk]zuqrQTROBF{)|F0ry}1dUbt}gZ(7A[])e75kSrljsNQe3OSss;p;Z(]H+%v3o^1hs0:Rv+{:sNGxz,c(v6gACmVJI0VMG]37#Vc5.pz1BxB8k5@IJ+e=)),)IdD:a?!XG#B/V+-a%:nz,Kiz2y=k4myu(|#wm6],P[sZH/;ozke[]#gL%Q2=+|fxQTLpw!##gN(bEDGxzbo_:pw-:gHMGHVNf-hsZqr6XY5w7h_N%dq/Idbb.R{7cNmNgTS.yRCN_qx-Z4]DR;ky|.T!pa(Ky=?0{=vz@8|*?FPRT^g_l.JtBfL/8}Y5R^IeQlxPblb0dF^eF[_pAEY?/P]0IKnY(SuVvZjooF}uEr.y|Ql[=DsD=tDCBBY9PwFHbE*xQf.gxLhGHN[[H@uy=]}xdl4*tE}i0^1g[Q^1l4hEE:-dwkzwY21h|0[865nYD,Q1t6VKkeoqkbeOzcvW5ITqpeM=(5Vtqrghb_E]VO0^#0cVwOI1s2gI9F1ls|mY1sE*#?E?)x:OLM]YDNv_O1)49%k]xVcOmhas}}6]]n:NojZVSdZleJ.@Ez49iH8D6?5Z9z_Zia}mRSD6bJd)u(nXXmZzF_i3@*J}!ZM369b716sb]3740Ow33[L7}pD#YEsqm{.Xj#[JmYY/qs_t:NqB(cI!n!TU):d%au#Tl!t,}?xf6|8;9,PrMD{k6EsjUUY^EGodZ]9#=[0i|iFb8J:hIH8Gj7MD!NOQ3l4(C?SsGv,+laM)_#E]q08EXKoDPvMTyX%pq[yNe:eOu7[^af_VBoDFhSDM^uAmzC:pRP_9aK[}9WB7=Ez;=CIke0JCN(p)WIB,nDziWNR8*Z2R%?F-H)3Km523UZU@8!EB5=?|C;V.1+36kt,21ZwD+5?EElUZSZNnf0]49rbNX9}aN^U2|BS0ctbcNjMz]Gl5L74C#v%:y=d!ORQ^QPWIQ1f;9i]7SU_R;rnlYsg17_oP.0ORFo_j/OSO[)pgEf2_E)[zEKLxpL[;p7Zh=aM2QC+2,=w:p,Vtqx4SE[?{dT,RRz492t#1e|S-xEMJiqeC53|SugVcAb-ejMmh?H:VpNNX,?c_{;An%_L1y|u+YbX_RU]k3MG_Ea(Yp7QkGodb=;kroO^J1K4D{(8X3PLF90^_SjdYBazLR8-*cU+bZIz}?8WyomsosKmAoE.Kc9kD=SzzjAHei@11DPgTno7DDv)67I4:r4)?-AWaJ4%zDTNA9TOu:E^!?F/d;+#(-3e,/UfAdmc-0oyTj}f?-_O*^pi+1ku?=di.0_S#DM038dc?anb}yv!2y1mu*GNv(30oLa%13612zuQD*9Bu2lod_uwlT[ai(uE.O!]s*+^nS[kyD,A8=#}zLUa_MJhY_woIgfhEXdrH%O!f=@ObRL1Q(SB;[XASsc4Roc9mBayHNYkc+tM+N{7^Z;0C,V^p9,{E+A237SOrVLGPW.pd9mbm6Q)yk!eW:r)QNt.ON_W2*J,@M;F3Rq3mBIWm}7E(:+I@c-%Y[#/q{6vJ86pocL3ip1!W]2]UNw6dlnUm)c,jzc[t|SX-j.8wu1HI?YuM!Fu,zZNf:D3%%X?lcj}]_4F^tM?}+PMh?W%huGPdwnzh=Tt/WvI:4;s[S0W1mzZKg:7^.!1}+P_f=iwZN[@Wa23{r:bmpb{eq5?Y:(sS+:KSef#A4.f[L^muvWjX^GPU!/sq5J)AJlHxh0cwepp[]Kl,L8%kXL,V74c(DzMw)AKy|1sz*}OHl]GNX3)o}}?9E;wF2WFT^#r#*hZ#K%)MAE;?bM2NOZ%S;of}9Y1d0U?Zej*PuZ:DSPQ!|hm=7*;mZ1!BG=2vnNTRLm#^[P*_iwf=)Ce-.O[L#^Gk58H=uTZm+r_R?8mw.SA1%+m+S8c_x/!_^t-Ty6tO/yf:L}M)Fsp;xoJ/##UjL#E/JZ_bd{WzSQcm{yIB+JzGjxo=nySYheN7*^q}]%@Db3J!j.XS;Te5qd0dc^tMHF{,9sB+M4hBl8TI!1jgZYMgHLk{pAjGK2%FM)?,9pBu2D(N(Pz#AN#-[tx?JB7%Rf;G!C5-/T7zaelz@=VfrgwUwmtu[!,!v43d;t!#Qhdpq(Q2?5do;E^aEi3cBgo0oAjM8D(o!(fj3zfObf8Go+c1(YKfJ8WYBp^,2*_/97Hk^!2?:S1re*[1d|sqC3O.Wg=mo=1)3:|RVRx[{2yodJ*],EKjdihxW!c;_f.G7CZ[5BaOQKtk1uU3eU_{Am;B#X;#tO!tuO;D3StUv6+nuzYlaN[=Mue]B5!!fBM]PfP*zSjkNrdj.W(O{6A7wH#GIdFq--(IMa@DlE)2C{7_*bQFC91mOewDnbO(^_fm,i_EO6i?|odC(dkY+8{.KSI^Zj@M1VrG/Mp)k)qKCMKKRFM,jwmTD7f9uQLxcXAf4S%VfAtRc,PhA|bTKcuR3kF11VpWlU4!yE)X/;e1Ke:(In5T:4:hq]%+80UzdNBi)GaKbp]=cFISot[PZP|;yNKPWUbqwk4-@K7oQxRdfWLBDjdl[5k,C!J7C|606B=0gZ[B}rUD#49avvEqP4r+gf*=}|=#yZ66#G?F;ou=cFzQWLDZw9bmkmIk[U)+CAQGv?W^g+?mnpQXxnB[u3epAwOnSh^}3LcDjomLBc.Ic8GR0_LJ0wde323TA5ZfhJYJn6O]R/TOOQlNI=+k}^s/CskzPO+D2k/Dh/4_Pwag6qziWNk:PzZGVk:IuSMqixs6//-/jOapZ?xAe^tRKUe)6,Ye1SZkie3|trJFZ@ixOqWFLlJ1JyGANtZdd-G;vyRXjNT^,B[=C(Sb^JJZ@g3xnFdCvHcSB^bg,WrZUVXp=:o|+KsT|pHl9+39l]:hz2c|44l;U1h4Y6hImP!?SLX?tQW_GP1M;Jc7/*]1wRNEv.)60RAXXeol-396MM#,|dVmBw]8WRn?J,[UvP,z1K-8#qAWCQNFFe/b_!]Cz@+Q@z*e=HA[ePgZq[E4j#o_3Fj;Y!x2LWu1c5E*EW)7b{:10e#?hv[RcG5Z?va|6zBnRovYS6_Iuo^BW*/Io;qb/1*1xEi;d98_HDth%zZVL6!:Hk5h+qFKu?2?FO(4,6;rXG!u76Pkyp,Nwcrwbqj4d6tOuo2_,gV#-P;lo}x{6xjw185M[CrTn5a].z(LrRf{lvWmz,jOQP#:?(r,G_eQ9Gy0W+l@s(rWU??ji^+g;Ox]U%hc(ivBFiPjWinZMi9DO]O9GhPi{ka2+o]4Rv:3aA*ivlF02=CltOLWS9zb1]d,;H|L4g*jXhAuin5VgCuj#CHz:5Kh2OIg]L+D/XL5OTaE,r!D?8QZBI4nMMs-QX2j?PH5U2/]Iqp/jVbtCd.+iB(+*IXe|lZ7h=]Q5LEs0I:_iJPU,,+i63d+]H5(WagSmsYASBFeFen!23/O?.l*ufT4qh7!wOo|KhnIbz3hJ4uIjo|q{McE:K|c:r2vicBj.)AF-y:9COr6eb#eHtkNgf(W6N@[^PT/pi[3,@s@*A@#b9,)vRLiZFb(vhgCX58We.+^ri+iYldWnFrzo#P-%Vz=L/,]SN=8Gy(6zQaKq)czAtTv*PW22b2P8HY7AH;3WklH1TmtV(w?D9L_:7-jyu0j_^Z_F_,=![47n{jYKhXjhI7:zt_C7,Hsr?DFHc(=BL.eHN?TGVWo9gKEA;#ICYAZT+vcnpB1DGsjR8.Xi)a-SoxFPnZgDQ:@Xh=)39)q/HRvR[*t7rQwGO*G?i_evOE5nUugOOlaJMApb4,fBF;ZYi5}IH2sU)PY^,rxQc,uM(^(#O(WJR73vk.l^tZc}iq,)@T@brj?([B_HJnBGQ6?68el}4srInO*%mFT7iDQzml:fH0LBFqcG;Q7YX.YR84zAo,K}TIaO7B9Y+xYS*SSe/G7Wr.A]cMf0dmdods)0HaCj9U}(q2|0wr!^lfS,yek]MTkUggD9G%!Dm=sAH*e|!_E]BQl%:fpv/]2rQs?oS;|)OOu/]8Yw._+49Qb+J6(;ivHM5l5hHu,@nS5x,Po^Q|zCe!LncUsvqb=_-,[WvgC*9GH059VT[8sEB5o.oc8|sa8yowqd8FA/FZVl#fOkKd?T=,IFT[LUUh{zl0^U1zQtcBs=t::^;jpUzK/r?qaj]EMZ!3lc7S=WJQR27ger-U[m?36)Qp=C[{/KrlqkzAW6?i:_GB6fz|adgHgUYX-VxmW,;U)wX=wnbhuOoe#aLbY,#_pM]hb76e5+{DhEWqaLR64;YGDOCQ.rQiR|hf2Ve%3p5fLpBhXrW*@A=#4/hf0H!,VvM,[1chb-cQ59Jq/r@LicgjswRsvLNT0fPhUm[M!+u@aO{Ox0Oyv)}_WzATBrBq[F@ZPbr4uPM2#V(8k-Pw%Cmas.l/f5p6*CBy*]l/C5JV1E-b@=98@:_x18nM5o3oP:b6)5.tLO;QPnIo+BwEm8I;c]VGc7zR}(wL{iLta^Nnxd|ZHXW6!Rn%82C_oO{MoPWLd7^tdGKfG?id(OxyKuIPES9K4_AF841owk^#j-Da89HpZppZdx#{%a:,;cH?C1gzQPOi%R;A36WY7D2:2MRf,]VpvH_z_65tZ1a#M?tJWYY]}6Xn;aQx+#wwd1|2e#T6olQ]Fj_Pk|/.Xs;+@+7:I+XF9v#v:(FjP3Jq|(*1bGu-)U.gsx]n=.N?dxxZT*S;t^S:0!Z2V:DpH;m-/rIGyjY=dBSH9%lOHf7WbQ-?QT.F6!kSy?}I9!X9rUPm;RkJWM5U]LH!Y()KuQ-)^@/{]/TC;,%1dpqeBqt%C8mPIS.ivH!u{lQy.#@gi8Ft/hHi3Dt|Zjv^*@4F-P4m3.0cu@H^%HIY!Hg-(@DOvDhA=={?bq[E^]a{,M)A;kVIEI_KNiVD?{UW=.xDq6Fkl,fK_[X;S%WpA/PU)sZlzVSw9o8fgg}5LyloBDr6V,nIo1oL%%d=3vv0E@7.JW!CL*[uxXH=9?z!%w.|@[z]ReS)ud8@uAz_pCi1m@#Bx^K8(XAkm/zHbFU2W9RhFb,G,6_?)naLkzFC_d(fl#:BYi*xvd.WO,cm#(u-j?AyR2vzW(@)V.%8|-geUN@%/(6qvRjb7v0X(UJex+Hb0j]sKcSH,/oBgQ.ZEL)9qP=gNm/sRQ/N3o#e6(Yey1];B#o=iM8xmI(1N8o;FzSww=HS@@YQZPCIBZv(8TG?#Id;3VwC{q@=h1weqSA[7RKCB|}2qw2=9c!xU!]guO;?)y1Qq[4}Fd/karAh%kGN,6j1wEcO/Q*O3SK7Snmd__EhSQT*][MkZ/CO=z-}cs[KMZxAvnMPDiC8+d(hM|kayQ:d0y46(Vp^noY2oQxM|;Y8i1n}0iRe2blkZW?xSH{m7LG%iHemRxCz?1ME/:h/M__XMDWZ6n|[_:E7[LBLPTDt3WXN|k(-iKn%eM6Svx_mZ^NI[RX_I02MNB.10!E!:54n6d@p5dSqZt;yzF+[%!h:*voH1!tshtVOyF@kMt(iH/3_!LTNj,XKX@D3Vyi,{9{c)GB[LZhDu,TEQ]I:2XGlB2VaLm4yyuqrBJFbwAnhFod?li,twQ;VP^@Y4Cy(7iftTkN-%Ct-gdtG_tR3O8:/NgW)E=IA.a@62YLbW(,I.WLaBjb_8P6KhTfE8kr;I/N+RPveq^g)hQ5bhZ)Jp0|!,AO.FkPk/}Mg[R(#Bc-v@o#ZP!3sTNG/0lm}wE.F*uNH5%H?]=7I+DGc2e-@1qy+Vz/@XzU!jiM)f/*J94O]P6t?I)8xm:wCdnIVVL(,,N]LvA3orNyIR@5/+EZ40OGHY*=FwMi)e5sp_W5dG-dk=fh9h(-]NvKO^TtqSu;QY},zeb}vhx_Pr)8C+ct!z5pkEFbfQKFyL;n07b^vIPU.34_K}#c9Oo.-33r%@,j*M-fQ(#p(k[AOL;!KW_4Iy||Ifz,Hm}vNX;2J0w:2K6A44+@^t:[N,L9p-K)C8/O,fHJ/r=EEKM8yq6jOq}XZByswGrKaw5.x[:=GjyoOCiN*TKa9/U/ewJAr#3kR}:a5pWN%i.K;S+=YY=.Qcqvj;#JmWB6?1:aI)_XlJ^TkvD=*US01pnSi20VbPAsynt(FX/^J}K0gc8A((6V0neQ6f}{k!|bXBy?6Spl080d@vwSQ[h4;JOkM7Y=#6}@C6LOLPh^J?EOUXPyxVs8{:*0x{|nN!]4j.GD0!n:ex1?x(nlmGS::57!BCy2W-gVm-ZD:t?s[Sgf=5mQK=FEP_JHr:4#Qv@HynYEM0y@b00#Z1yesggKmu{oC:9v/NZjz-ab38rD{MV.6O9p0dZ1a#pIi9bJrwwwXl#EiVaiHYjx_o//4eo6oJS@G(p;bM_6hS+ZB[9tsfJrL/|LRcIaN%OXJOs^5fdK;_,m+6}ZbB0ek/J5cz%jhm2nXd3CZl6?oj}B#*Wc@C-VW))o:1w[RPS9wQJ[?L6qX[M7v@-i=.kO9(l/s1.iMKCF:L[wKK?r%l%}_?B[nd+6E^5(Eyp.WKQKT8[S%Jx9g_!iq|Wvmp2A5cd+8i(4KDgDlU59J?)m^l2|z7/G+!Sy@NjVj4)iA3HSB9OBGs,*fEsj_41a?Xk%6l_}v,yX|Oa9G:*WOx3^4D06,y6Bsr^A8pbi7w,gOXLdCgcX[843ll,]-TErz:qnO41SZfEMs^=Ly_S,7u;8PiA(I;=6}L0t%t;KLaY{u_E#|M#!RZ=9Xv_[tqjJMLcVY[q0,gm9Q#3cW35!R@fI|UhA*KE#Lq?MVZy,wsMEH9n9ozt7g]=^fg!wTeW0!lQ)RlpENqv96fo/XGEV3!uTK0i_E1V(b_Uc;4kBvq#SDI:twXUQdXj{A%aA_NW@?f6KVKiNH/Z1I5s6f@AGxXxRjt9V48XtlLu%WO{W-zHhrRVK0q7%5!+p(LM[j8:9aCfr@fRZwsvJ|FKX^;u]?Urw]fbf/Jaz/kNi;cXI8LIoX_T%c#-M.w}WTn4DFSmU2G;VoeL#K9|Q(^Z6vOk17c/NReaN0NU@*25uE%tTyW,9bD:j^!Jq?6RQ*mN@VS6x764BV!JF?.r90@ca/O:/HA@=szitO24{5Vh%q=RC}oX,tACwD_Q!1HpXR+;C%dz*aaoeL+)IaiN4,uEPq(*_UO-7wgZvq3YkCIE,xdhI3Ym!SJxhEU.9rJ=J;9-J9)-m4{l%B:|cE]Ma!zt9l_m^;+Zq4lSwgD[;+C%u0F;A7O/U/TD-d3b)YwXsszvOn^3_2kB{{nXbENbT.c8M%4H|7^%_QVsX*eO0,.+.eukZSawtbAvoS,Ijs,9ColnHKFuase.t_=R@)@+Ib9aa*5r)*K[mhIU/0fD#[+MY#BV}.JG1]eQ1{_LKQ%KRFW_93e4e^DVJFRZ^G3OO*U/!7V+DON/wxw?]!;eT,:Tej,*v*UR?HyjlVf0Z!db{wr!|Mzbyz]!5bBiu.PN*PVAFn4Pjr7%6z)llNpSBrUp}}9fQ%i;g[t5UquPz{+Z9/Qr+mO8Q.g1+=5g2dKJ),c6)1Y9PsA07VG6L*7W=Ix]i;)|^6Z7.y_r,:oulblU]Fg8e?7Vw4X#h?%lj!0n*Vn813|*:DfqtHpm]C|XPi8Rpe,_%W6OmTpuT%@/pw|bus*xId@09*xJ]5W,|n*@%rpoI%%/4p?tP0_#RIUhwRA#4TH:d?-e*e#ELOtIB1ZIbK{rWv52Z,7B^8[+C?_gBdNkF@5fVh:yJukBX419m7[oAO6B77WXEyPoxf7(R*R5U1wn1Y[v#7[65LlDf#*{pu4Ni3ml!@p2Is88/0g(6J*aS2=hn?h5e,CjSo[nj|xkBDD6k!UJ#Dn!Ul@-S_h|Qwc2s5{275heu/cy#i5}0:-fj;]s#jGRGgk6[JcbvD}KTr/6zgJI*+Rc=eHpOBX2K}Ykq1PESWnhE,M_gr7^VGo9TpZFEjPyfic2(%fv?N]h3StEq;Qm2w[qG;?JA(d6/zUUe3QY,jJP46y_ukJAU10@{MeRsZ!I,C%mgv+WY_yeJHINhu18/+i@(5RvvSdScw^GkhII_+:QD?qyV,1[InEx1TxnGZ1/Hz?xr5E!mRL6pZpB+^/b?!PS?9X@C;1%WPMd^(Xeh,{arg!2-,tqXfb,zN?[-.lt#Ga=9:rD5ybMsHTkL4H8=r-wy1/KO1GK8Bc=ZZ|zJBi(4iBmSy?qFq=Z}=q=cU*6QDa[HbNIt/f?ZA]_3V?mSC}t3LG1gouo;l#/]nrPz0N@Qhh#FB(?+I@f,,8GCiCnJ[TYa?w3wjDa0F:VU13T{vss1F/i,cd3t[j=Jr;2nbh;bzA%tkAjXi0vUY{n4-;#F_Z0SFC!MVSw!GA;H=Ee!eChtQ9dck6rGL(=o+%/rQ0jB1hUP]s@@:V;LC_?1VHFc6D)#)R_=PVLyf.8crymh,YYioW_UD*yTW*}r2GxMU!neEx_C7ba/1EYsoooF=9;y{I*DIb,=/kPy7m^Bjt)B%9.{h3Txn11Ya1c4g!^L0BUihjhO7tz-B6z!xW+rCg.K?,ZGb0H%F-1Gvx*IjB]+1/MKidl;XvKXaA|(ebe0W;?04[F=Qg#c|cWUP=bjDY2ci^g9?DMMl|}x@psJN7zs6Uv?8E[[BTZh[x-,yb}]Xz2D/e]aRN*.cvJ;,zgT77?In=@T2r1HR2Sk93NrfJ-#gNgf[NlPyrQP1xi[^SFsM5c+uk:%V=}D)11;]7^U|tW4|r;-.lW#3J0dC{%H|v,bm6_sA;nC8vD]zQ9Wr0e5z7:]%8i@9=jG,n}1b[j#rykV?Qr;+4lEh9SB|T;a25Pqc9}81g+vW*@[xGZ=e%0I}Wnmk]NOpVKML#@*PT19SB|T;hvRjv^Wq61g+vW=M[FYOVWYQI}Wnmr_:VuirHp-1FXfPOf8o*)0qY+xzW-*i_6Nt(T/KP9=jv;n}1cFvB:ZKGDQ1:+4lFcOf8o*T4QzTqc;/oi_6NtARax2Z=_{ag1L+j6A7-4]3yYyrACz94qmd*C?_gqKbGX,7:%f]4qqr=_Aw=g#knsGKQ!w[,jB^eBm8jfx-OW^7:+.dT-mlW_/j*j!tvJ+Tr3x6G(|J=_6(MrTiw1ti*yfohcaylW3hfffjPs3Tyr6teu8}Cq,RlD:#[(x/maWm(UF5?DK{hCGE1AGr)rm!tB%([uFwIpzakId?%jj%e,w==!HuNyE79QRD?BtwV1,FROnA3pfl--@:)ZFAq|-9aV*NgdFQ*-SfsiO_Vmf3y6TTH:V*:3T5*i%)PMK31zs.jr,=5(6qg#4%YvcXrSE:D_xMq(xb^_%09afKr+-NT+(sZ3j.^lR5x.eWjs8s_*UdP^IA:#q%v*0D}5NU%D)uv2lnujXwHLcw5o#J?p%Lj_kQ.T]+[.Qn^zbV(tvj}|:SeYZ*/0%rwW#_^hGtf.T9.?4CL]-}{Qxo=t4Z1CT]cPt+(?/4d!r;d_7toxi^8WijJU@V2,9ZltMgp4;0irEmZqAFR?oV2=*UIW/m;Xgfhx6[cUkQUq7^QdEU%];1r2)U?{%af/Fvpo!-^7*)YoSLbQkRQPJW@4QXMU;YDf8_Uh9G]e](djqR/NavwqD7%2)20=0;H1GJ^#iVfnV[B5{bHCIt!*.[nogV(}V{-A=i/zHC7%?2DaX6JGg-#0Q%aGD4frVAI#=n@j?jVZzo[?Dp,-vbV#wpU}L*F)AlV_KWzVjH8JB4u[ZapkQgIc7DyQVlB!sU4=+Rs8QaSj*Y@|#1)[1Iw6mg22kKTpbCTcpc=W0wc?5mEiMc)akj|0{DH8@WqGNI{mZincjdOMlE2L:V+/WblYF/;su#8SimtGr157zKBhG}Z|NBsVF1#G}Gn.tRrWmDCqI@)cJ[/j5[w}%1K#2CC_JB0SKW9y:El[QSf2g2q^GX;D]I]aTr:0kKz^c*#FpQi|DY2}n.0kCUx]X0y7WP_35-k+2Z;;y,=qSJHH5m7?E:=@l69pEbszZ.[Xh80vi/w/R]]hAN1SVnNr%h=io:1w|i9@{KuCw_x-PfHT]SxUmH,,2L7ZZzKl_d3)rOASrj=8[bV:8PSj!w:0o)ElEVgc{H(qGNw-@2R(g:Gt2X3I?Fbp0xj2/;#WI0/x}kPFfW4;4?Y=HTAmMQB2@8SKxRQHRg6=Q!%h#);/kmwkOXqL*K1Q=*lGV?.meLk|d39tp24_+ZqjJESOb6M)EIWLB.c!(5v@TEAVNrN.%CmSRj-1!y{%-DyC@N#VwYlQ.GF]@9]C-iC+Vt7I5otd{=xuSm|3Ex%Yi^q%Tf(%]F?;X:d8uLMv}cBPC|Tx(94exh5:h%]FE?^HhHYLGwLTR40Uq+K}D%+YRO_h^eUCl/^rdT7hLN255jX[KE5L%mKQ}LZmn{6Yncjyqlj-7*5feLDbEk(Z,3zQdkps3,JkZw*ID@c0JfwN6uWO7]FIVOVkcmkz,H31Dz{C_VR2AoOFew%h=iog2VT(^:u,0sHJSnPu{A:1XjO1]EQ;dI|E,XaM7P^8KJDzL1{y;:fVcKIl+khI+dvhZ1^T6TafsiHl4+c4o[f(dzqbFjjB9]JCr=k#D,;#+ydwM3IVoH]e5u,D|./E!r.]b?{UcqYeOr0#D3ZC6S#x%ieczXlFzHKwvh7L=+tGceu}it+djt)/JuFLIdgR@Z[ajO4*Ns.0QbwtY@7Oij:DPHZTlCsZWNf@9#K{Z9%6u],1^iZX9vN=3a}Wqcd_.a,(N}zJIXVyA]o+.^Z3Ha2LA:fe(..!@;aCh3%[2@ZVLc:=+vp]+2K:)a:jsi6+?,55z4KwhR1ppS+/ULK#iP7#3VI4DRv;aja|Ei/^]csKZX|tS+shlg;VKF;dyO)FDyuDD.V9poi.VY(g5#YD1iBUaaoz9^QDG}R}|g[*UfARjSPSRV%{k0,/=78kj6MG!*kBNEdW1RB-Xp7!jc*kHA%I-5iduH?LKW+!uP#U5M1I?(Yf(6?TGsjJ=g3+{5e8nni(_|zDFK}6.*+mT84PgT?ux}zoI3ZjUNU@mE61+5gkibI-_/QZuF_H=rl%.t@{e4HzK{#wymGe5k5AQ%5Rxy-H-FB0GIoP)L)U9Fyn].-Nz:gzfk-Q#brWOn;D_{X*@)e7dc?5ghHQO#/z^oZKM1Xl*1}b7ui^,p-b089iS}5LmMZ:BE6EmZ]AU#.[v7K[ec5}d6zX7fu79*tU[9OH4=yX[O;]8*nr32342oL?HnV0]2:7xh^ENhTky3drG(KXnLuBmLl6.j{,h@1(QQe7T[GcSh4XTIxR*p}lJ7|_Baq+QZZeW=3KobeAGYw6EwdZybC*i|_+-bu#ueBy2oy-;a^K:lGGX/XnZ}lCbn#,i.:i#)ChED2Tj%}X37%?rTj1+*ChGwxvi/TA8axxW#t*:4(F8lFaZA^L^[tGY66,}w9,vXN?vYjVB{s#}X=9{0+{MY=.wM{Z,_dMGBlSsmp*!QQBJrX!cI#eQu,bo43}bWSlcmg)Gm/_ost48JzC95y8ByDST61|/!bH0ZG2@cwmM.(oTL2IsrVJ3#T=w]@+32@2qH0eBytJ/IvzEp^=]/jxp*Q9?D@HsuZn-8dG8kZnsP58=76:VWBLGY_Yr4CaH9M/gNHv[QJ4;#!EKldCrZ^pWe=?Z7/Ag|nQFwBZ-|6XY[U]OvX8|CRDlWMU2Hh]sri9m_UspgdIEI=D4x?D#X0MJA:Z3TTb3-Dti?QyCI0et5e(xyr@=@Rd#*nj(5UB6x2gxLPq_Dl8qt07u^PtYbv5{}O.V/UhetI}iNqTB0Ud!;Jxsf%dhIAt@l^!W|LvXCKOUN{Nqy^kSniFSh1R[#/q[cMKukjH3OabI6)XLl-vSb4P-[S-xL:MC7r-?c1U6xP3fsb@,/*Iz}kyMJtMR]PMq}Vbo{!KS11_kE)KmCA]jld%cr,o38Ym-tj-O;Ibl,|PHVu]pY:I4!xs+C8WJphO8Xw#jm*Ph=CH:15{q{Um4rQ|10Ova0ZTTA:_.6nEyv6C=objXtGLGZuB#325/+A-M0E^j-|7br(Z@05Gqd,ZNLZ0PeoYLf]o,{/-J8:oRBsT.Vi0oM1v/-nb^5l=;7TrwS_3HwT:PR9!H?%k4,dVF9QLq8+30Gn}}2;epuZV%:aKP!But7WLMqrgSzt=QgMIl^{XL[*N7)h]SO7*1_T)1;riUkzRS/{3po1N^4AJ}MF(^n#L62Bl.-+cd.xUSs0%IpB,=807#6rING!8-}.^Fj+Mp,G|d6e@@RZM?gNf)j[{G4m|!VTDkbsjQc+U0?g0*uXHE;:rr1,3*5FxfhJc!wcOy46f2)RE-Xj?8LB)pvL%_=Nwt)DJ?SK}+yS[7A.L)_0Pj|U![DZ?-+1NKxlT4Q;s)=o]5YpdCE;rB?MpeJ9e/GgUwmw*hqRkVqEM|!w7t(+ZK999=q|i9FqY2XzG:jmA^vTY]k-g49oY-!W+UU:lf7-xIYlFG-z+MV[;eX(aIV}L06:x0x5c%Kyq)A:OLknn97L+G5+M[]/+DYu/aco7#(pF/1?ajcwRuX6JZi#vl/hK.RuhYryElk)(Vswxg@}V).;JtkWN[dfcWU62lc!I2Ju_7grZ0ZMTplRn!NfAZ@Dly]+QWNL;MNT8R*BJ,oc5z?t;ksY6]{qoOore?(.(kBfRQr-Ogg/O90(f*CQ_-AHf*;mA/sqSpjZzR71Ak=ZYsf:N9@6LZzbwR[*_-_2D8rdkT6T_?cJc_P}K/9cw2rs?4OTN]oFTRB9#BCXq5nqz-Wi#xs[FTNzyzin[7Yv[30B5.k7i2P#6du;CjFtQy=P7Nis.EklQ!]=#4+!e8*r;Ed7kJ6,_6#;0[@9TGBfF08Qyc:j[yFrkR0Ly(Nf8xPoqS,b#,2k)(^cb;%LhTm1CA?*yBSVi*wOx[E^uTL-A5tzWw3A[;Nb/|VK!.*/53z%8^9BH9T^YCoiA7QWd7?{U29Arfd_e+Sh@y|05(QJT;YA8W:?x0?uZ5_2dVxqv1ElqdUa4}aa#awBd|QIrs)x?:FJgPS#rgna3DNRX/W_5sk.[7SA8xEsqqNom-y?7eX,q5*-ziTS;+w}/j51o}UOvSnXULXXC0q9w6%aVpc*@ax|ZvtL==d#bH*=@TP?Wjyv(;VE{EljnziLM+msnlP.01iBm0FkqY+9.@,2*X0*ByxJwf16+o}u37]B.k1ArjH!sGiBMfbSI/9Av{-95y*aET_GUmMp{GAfNn4@^U]uLKeXk2;R2@6m!zqK=AAhp00s}GB(*5{*(45vXAh(OHDjLFDQfqEH*r%8f%.UNrscIXK8AW=eLed|bXt0f1p|mI^e}^buqdQON(kQ@hTX82bHvz=(cP6l-em)]EF%GlagC%[K4o_*W/5a+uz;B^tO|Id*R4(oFE};u9IWkF-/7;j.QMsSM(Wk]1YIWci%wE+{j)%4ZWz8*qW3Plv;k3y/=;{[!9AD-sSy-0K0j[xA8?;;kv=?CJ6]BJtR!Bd3TeC5y9Pb:_gcjtw,xk22))t)l/8G#Pn#zSoi^[s7w5t{r3f3;L/jGB?hepeBrRC%*HGqk=FuOY|9/d?pXkFr83EKTv^!v!DQ9_K09m/!C)D@xa[/d@hPT5SOaOI@FVNoTqeQ*vbzXi(#tm%;w5et^IbsJ%})ul=::=CpLMsS:yv@yA]*{b0ERm:tsyYPX0=SJ!Y8ZjC}pm=ct)euk%X@}c!TY,)Z__d!H3poijU/{J#,;9rCN8##Mka)^=_mb|Rmp%Qxr9^e7mXD3)tQn0!^!vV]Fn|QhvaiP,W[FG%UjAk3(*DiyjMlXIf7wB?Gc@aCl+P5vOa[4u0YyYjaY.,v4WhOtAz.W2ZMCgt]d?^]=wbA#qlx9D9Bp_P(00QyG(r*:6,}uuoT|uy88AlEd2zIXX1A3NHYfo;lOj|JD,uQdX:I=GE;yAa-q2306pD!531B_h-Ur75#!D::HGhT-VWL2#=.,72ei5_m8TUkkn;fN*u6w3b_W7(?.SpU|jiNBbsBH1=/jpzaZmfxJzI/hj!Zf=07X-YRIA,FzZTa=pjer0nnN5W{;D+;CBXj,jLmMQ1:2KbIr};_[6/]1:e8GgR/q-ZZ4JxMa]9aF9mP%-O)b,p-3TWtwwG@4W#mm2[a,[HVfx?(fCRV%1cU9aD^ie0(N(ay-By:Z,0W?Wy-a%P/DK%Z+fNMS/H-vF43Hp1qX8]9ac(QhEmji0uEhI*TaxbN5UNw5QyAXGl^uK/Faos=[bwmi=KodZC:#;y:eX[:J/bPWk.cNPLg(jRRZQ2lH+YNy]K|m@:lE/xSN[Ozu@iKDYS*!up6GxhLCVG2Hu%Sljz_!BWjZ.P3(ayl=:c/igl8CJsO?*3^/uC!q#j!E7.LiY?cf#Jq-j|1GxA4Hg3S|bMyIN2!lqj*q?X8Q(be(E@fR^^jl4x+)50Sr4]PC+OB^U_%dhm8?I%6lxw,d7G;@2]C;DloX.Hz=DDxObg?)b#7-q0rqsvWf;hXRA+g!1^UZ)R|i1w%6{j4=r4d0Z}-4ztp1EE.,b5wrOBZ;;%AmfJoQa=PqiaFR^;oJRu#%:elIwgmi1[|/WubeBID*ccRr/=ka(_xfe?!5r.?:2bCk.mAUiSsLryffstq,!*q@-yY=@k-mThHrjuvMd%aP7h5#3iK1:ECfEWtxbJbj.Gu^wdwBd*].]KyZd;,0H[s!2([O^7?RAmik!L.HMV(@qr(!BgPmo2!ycP0u#rO{UimfT{X[eOKZ/e^bXa,[6MY:x}I-n+%!Ae+A[FwC/F-k:_rV1?lBjiy23(.y.)5S|*xd+Z.T_iC0HH^DFAHuTAx*Rltf{Rtw*ky[;XdymS5zmx5uTGEzi*^(R:gkyo!6.dPSV1.-7Bce[-*l/^f^8d86zvZp-^]ULj4[0qK[MvnEF[Do:k}EjmTXt4MA2UqpqF]rZN9g,x4Y.rGp:N)S3d5_.]qm9n%@j@z4_2+l%;}lywj94,0[%@y):!KZQ//ANffZSHR]}SQ]=j9egN-rj5xfwTa,?NKXOj]h{m9jGy85m6S/*};51K;YQU#)@AAKP)c]Y6B{b/H?wn4)9w/d@i,iGPPeiUI2pfSdalu=zR(y#@b%29^FIGL9#svG!.,?Y??=^1tX;GWjp|yR}DjtY-x[#t_;S]EXFwZR_:{FcO#A@qxQAI?e0ro;lr-T,4PDzqBRF5whA.n06c3YdpU}UP[a]Zk;cS[:w62OwE,iNB-,tDGXUdn[9LUnb6nI4zZML]dF5G4a7-)PLxqx!CN8DNTo]7d3/,%O;(2%%luSpl5w?o}dy3a98y)I[TV=eY26Np=@nJslgBGiy_4u^#nrxG7X0Vgp)t8pnq4Wcv^?ll,9(YE=xH2.2ohW{LPuWm|b_=%{1AqZ)/}18P(DtBB4LKPf;1C!MZW:BdN^@z8BHXyk]ak]LPfofSol=10c_]bqc:P=exype[m8D7#mqH%I4Z7:B?5f[.+#t+F#qh;s{?81YDDUO-JRAxDJab8ifq7N)rFJ*W/ngW|VS:zKG!yy/Z]ZPPNO.8F2mx-4p49t^*inMPQu?:l{PUA|Sr7k2q=,KN8Q17)H4Q}VuWX6!vfYqZxq7uUv(t#F@TRiN-srUrOuiYwfv9?XQ@FTVNAQ@p8pyCt@1w@0^Fd.YuwB!;_P.m*oKMD;.GTMMzRO/(KI5#,N|IbBx]esz}Rqlm0pF6)b{w5@MbVIL2%%WJ96%J-_m5zY:]2-%z]9Zxq6+OYamH@ppgL.}w)m7QPQRXBVa*35gIo4sGDbiZr}xBjM}Dax#I2^G0l@?63P+nh9y1^Q%o(?a+j{%52(v3aMaxYozx2^GPvTq?i{^9,q%*b0^uBZ#q(KcXu(OdSe-8.M(E1|KGLah:cLc/2oJDE)2O@0vEwQY3L,K@.i/JuOp(/S^7[:MrIoj!Q*k.rskYcCQ[5]?o+i=]*b9.S/SuY_/v3m=ScoBe(dTXfGs3C[!ymq%.;pu*C%hPaYnUD;1vxlk8Go98DSQAR}3,K,5!h^sf5L9_up.!UUkr:R4y0L]S0aB@yT|Q6J4V6b{-UZuuZ#5R^])uOmPKa;_Nr3{W+}ScG6^k72}+F@T]gHDWhom_RDo!k!{jhe)4qzb-o(:w!d.3|c}463pWKDe?V2oQgXmfUW](.k5d29gX0my,*xgqK:}Tx]iJF2k4NkbY-5VsGN:D6B(cG?Ar3([i+SLB9hy!U5g}dFV6vL#gOH5emWb/K^6ei^0()J]E))?YJwcQv5,3tt{%L_e/ow.WC!a@OgyFf9CVdEBKKAvJ)zxI,qW:?OJX{5PO@tP#fwhQ]%_5.,KKw0UrH=#.8kQM#:k1m7_{MF(Iy8e5|l^]Xpu/7[n;)G.Gal#ur16QJ=-P4BYNn,+GN]z6/H;@MdG/e7f3zf/rdN9qWKlH@3u#fu.*YtlbmcH85lcZXR.w[bhJHURLR[Y4BNpztP=P]@7qqFmHrn@Se@H:tDn;ClR)0FMhCPi/4M;ZO]#TA@7i^ui5XkmV/{+u(k)Y:J:ZVTLs^3+dI8F6H|.=%G7Z!R0|PhcVhQ?.jBhdYG1^Zp243+|a.XLI3|3Lt@r};uIif*^5-FsTEt(4j(m|e-,1flJ3@E)!CvvSnboh9]CbHn2or)=8Qvk;Wa0rUMwf3m87BeAR3.lc6uzT,5qHJ:u#jOQ/W-7Q;+=VEJa4;9IDrH6tZVmjE!kT2b1f_xDCpR/fDbvv5KKtalX*UCyjRGTyd,j)qmg}v+oG(XEN:9Ib1K,f{xxSjsyIVwZy;PA%iDuO9Z;yiq@+z!MsrSO:%_PKW:MO!^t,z10VD8%?5XqRU25q-,/*.wk0+CAy@N[%{XyNXVuAPo.N+g-7:Qi(^;!-6nw3^Sf_g5::ltL0.YP/+A2U{];mi3n*0Vxap-sO=|^D+_kZNHx8(c1TChG|:#3v}E7Hpxvbqrv):m+w}s-i@2;/(4wTkU#s*.*J3*Y5vTGY61xfbE*EI0lgXN0Sp8?fTB9t2CQj=Nyu8g7cdMb,gOT%,,S4b7]e/FKx}-gkne|GS^PvM[eGfOmUbEY:7:sU@eTc0B)Rh/QYuJ/Y9@y,YP3%Y?ey,J.?4)*NbDDo8NZZ8LV0W+yCp4dHQ-3hSX,O55{yIanF^QCqVWO-P9^M^np{E)uRhc+Gvf;{biA7Xd(X]salnXB0Q0wn036pRqY_CV?0Qlr[|%L9VHStLvN%ODxPNCQU!B7hn]k/-dPeQ}@c0meQDk7E4{c|,gVzC1Hlyp0,UHdGBelwnL=vWg6G5+IpU13NQ-xZ]4ld#CpAG,G)QG^rMzw?5;QB-5+hI}kyI2I*uMIU6@OiPBNyGkHKge.tin|9aobda5l4)LGpKtBJM^bod?kG@-gsN00*9hQT@=35pwrX^E@mY1j)..{;(GP-+N2iW7i1qcSih1Bkq#T|N5fU.O+35Jpo#GG5dMqxXxaTS}ro/6X3X0Q%nw!J.,W2cYKHH|+rrP8RfyIt1F-n()?Ds@6v@=B{*fk88M=v_uj18Gc,2r/WQilJgd;X#iZ%A*_0xPQZZ28INc,xn37J[UtD[!^QK7^9x.{s*A0nmj|-;onP,ujGFY@(,!!n.N,F#yNaubBnr[|Gpsb11!(-;nT(7AR2}m*o9+n0^CKy4e{IrAcPc/tJNKrYT/,Ekhi9WhZc_*[;?!m]g(pveS.utQ:@Kr{q@5sHoCrWU.SZ:MHxV22AF/OcX}a2koQ8g%=|;9H17^6{na|TC)lOiRD,0a;^hkESJ;We0}@@gv2%Ow;oz1IKFqdg.+j+EEdk(;0z0P3zi6JG+imj)rvj7)uOShS+w)V.l}@Ie:Iv3AW/}V:0ywv5|{yib}.r?NWPgaCos347+R,?oDwaoEM9He8]+lVfv1B+O;4we3axfF@h83guKvL5yC(kNqOZW4!M5b9_:kB:8oPgF_3?-]JStMtE^BC%-lhW{uXPG[0R)PU6LW[(Mi7c#p19+=H%l;R+FsRl8+wI/cy/48MAY5O3f=OvW9}%R7sbvCwQZqWGd3J_+}(TpK]v;*U;,u+fv-Xy*/%BwP-K4xeV?yvx%uO#fS?)o]u+Mn1B*!wpY3b:s}c?-+Ghb^+.0n0c?G^1enl?Vw37FY?BuBfu!3N?)w9W=/)dV0?9L!4^XBKWV8g7vV#n4WYviNVnwns5B_l.?!wROWFSrB.f7GsTysldGo]|*lzpDH]6vw,(ocBo@xbHgKCPsPyR4-;h]PCH2.w}S-WTbV2KxFG3Px2OyGhZ{bOTbHo=C0P5VqAX0O],bOiXMZED|4rnX?%#i9VD#YPad6qdor9N)3#FiJN[=qH7=-0C/ytAg(tU_z5hd#60Jb+I4QtTVcXw]9Ess@@z;0^u,|:%#Dn|?:r}dDT},Lhr0HlN4b/JrzmPKIVYED9+g/}Rz9D]x_%9xV=ssddNyE?Po/VK-Idgt(Cqm,i:jf:nO2*TLNg=/L(9B8^n,+8!xI(lRm9^_:w:MPCEXsX?N?[:b!a:/Bp+yuM(T2PeOX3HReua4KUvj{dzhIE(.{i}0iY4EEz92bDrv#jQo@0:tS1pLyevRroe)al-A6T)gq14J0ob@H.vy+ZOP?[.la)P2B95mD:/wb,ZOTm/kwJ38kuUF8(++GG=e.mEtRcD=#C/xH=p3]IdN673JkfsFgon;]YC;_8=z6-,Jz,50nC;_97i+byRfFS.*r!}lrTgiScX_a(Y*/GHL^bCu:7^I=K6ElsgY(/C1f)_gkscWd#uIov0Pi6?JY.s^8i-u!X@2+%?iewgD%Q2BF+vu!2iM8y0XqoAYoEMe45aK}Vy3Xd!j7,1e_R{RPKT0n9(2^OTEPJ.fjq9mVLHu_wdMax%K.X2/@_T}Xc]fQkZvl#TvAh?}M+xvD-;V(U)-u-*#D,r55Inp}^JbdwDRMx5XB5:.t,}p-srO6q1R=O@X}weu1A#u/XrWTWf}o!Ue_jAU7M_kb6tTo,NVJ_C=6HO3EAZB|^ul%7U,@|m4oUM3NB8mA5YQttCrv{Pc[bUpC;:R2NcDW{b??Atrjv(tq0?LqupLd3nu7y?wI@^ExtA{Z6,}w.B2Rt^0TN(yz=X{.dksB68Goy;9W[sZ!pAn8s:ohl3dtrGP;!Wy.VC%|+gahBvI;fAXQI3%f=bmTDJXlG!-LKp1e74@pLv+I4%^;T!2[rM{).;rImvrNJI:Ym/-gx*^zX,-)[^LzfYy73+gCvMjYQ753GW4Zff#*l1[irEv_pMRZ22X.AZ+lo+-!,=e-gXDq=/UPDwAgYR)xK6vHS.P^z][/QJ3fO8ecGo@HDwg5%M_:Yf307fQ%o!E)Hcoh4=}kS:{apO!n5R-c5QhuI5R7tU7:(so2Mk5e?yH*rFgbRI7VK3Ta#MER{(xm!*:HM!+o#uS}o7A}Jk+N(Z!}w6DVbX5N(tx@jn|R%}Bn))r0_2aGTkgrHWPV{Q5@ZDAIB,#{D?Se+/NvlCl^QieQVlR{q*R9nfC*xD+N8DTl[Y-ql-jrc:Gd9i5D;7ZW[Tci+E7ICb:w3^Tw(5CI^kodoO?+e,bz}c^m9CznBV6T.p)4,O!^uQ(oRG{2zaQzlvGMMtzbruu(gvfsU.[c1vkoew|HkZz{%^!N,UQbXl:GKnA=L,8?5US#Zybbln3BHEid4Cp?4WTW7=0B/=C)-sO.nGdAHXESm)n5hIf,7f%Lq(xIN![:(Qu_e7x@D(*kQq]oqz%58R|p:}DTBHiyYss?]zOJtf.p8ta9k5{uoL0f7ste}LuWp796ZjIOBlCfyC9X_rKuhC6d|}gXh+/^y!7^epd@BV/tFu..2VMlV=KHW8_4G-QufwlOd_f?215?]ga7v@3f!JUj=?@7p:Bq/zKktcEjeTvNttaJf8/{HVkz}9hBIevoyP:R,c,0aUqA]Lz)G.]I2A4R9YE@oq7/e^U6,eJacDQMTW(5^68!CNbTSC#rHPq:kY(yZATVt(x+[^,3euO88G{=xshar/[);Y_V/U0aAwvfq1%2%8sVRFb46YzoRLvKiWmGc{2dHvU=HG@}k2N*/J:z!)^y5.}sOt_TWml#)c}pEsMz8;Nt9m?kaI8G+UB0o2u_A|lNbu)sK=QD}St5+vc+5)x5;+Yzr/jpESmy,pdYVds6R1wb?YbwHBRARAntrF+p|MlcU(PM(u0!rVJyp0If.W}mnUhlTF{UJ_yx)^XJ%?:NE-(fP,:h^brvE9kt6/h-3c!?:wAwU3J8^?5e7Cu:n|5L5#iiCApgGA^hH1W6mujF70e5V,tz.-TIkkOh+tGg7g*p51sNQgiJ};mR3#FpHpySsYsCX/dk5kJ@jO]2(4!_-VrfjiU)J1+To6B:gKXI11;[5-8oVL[m^)[:^7RlQhF@/6PP6]D_lgD+Ggr4}_117ZJEbulY?-Dq+lK1oaIdQ{nXQzWK6h::K=!jk/IrPlbGeQLif6I}}Xba*@nh?+o=T.T!mICH:F}qpKh3dTQ2xz0?wN+=4s8gTMjJw_LMqi{1%3x.PQ)(WIIGWE4:(%otxP*JAi!6/xQgS5yVtNv!I|o%hzXz@Du9tG;0/JjK(NssTyvJp8aDpd#a70yyNL@F=tsx^a.xq8e.E0t)4W:{iRR4S]RUZ:kOn@an8Yb8QfGV|Kokwza2xlHhPJ8MFqLUc}y[4gX^PzK;e*myoJ;L%tXYk^ObS].8xyZVsyup*(v![qaGS@ik]0PDH@DaR7xSP^-i5F=6s*;sOmhBi=DQCBfvO)Y[(muYYx{.-TxD[L.Kx.A6JYE%kcjvlkkE8Elc1G{0JvIG[R;A7Wpv.tT507nbP.op)v)Yp-,Sxo:mj{e5orOA-k%z]jKyg34pX.5i6d!Oqcae0k)HfZ^1mN]=-!S{EM{H,6a*3Hkp;28|hNV%6y5E^Uv[fZ.eeM36jGS2opX1|^?pZoRx)u}[x/DgJRBFo=?nT.mk!9c?Dbb*|v%crDzn8/](OMRUjnI/(p_A!2bR|[)BsNlxC+L}FlTrrcV5O*eN.}(tcX7ZhV]oP5@flMj?OI}tlWwWGLliOz7d^U1V:pKNX#Gq7#O|korIvzP0k[%Kf(q_en:g}+wzF|Q?eamwv/b;dsI4#RutVOPe:B{nJ{Et,#;;dRp:iw#[]924gP^NxdMdvIn*r-S5onXMmlc^-.)P1J;DfWRv!qReFgt{G1l;@]:bvlvYv)emFOz=Rz/8.u.-9!O5WFmdYUtW@=xTsEvLHfvezKXaSQV[Gy]rU0gV14ls3KC%rm#5MXFeu#X.O7F[bkF?S4+WbS4,;+p)nVFxR[y,s{K.F7HTWdrh{GaTX0_;KNe_[v[@Jxph4dor/}oOxl:DsQ0z78/%t9me-XBtpnAGL[6PO%)L/82-K8i+b]Q6NI-jkIKdw[]awvjX:FTVE^A9fyq[H2-I:Oi=8gg{xLKr7#8JbpyKGS:?F@q!{CpJ;,oU)s:Ifcd1fsBN1N,@%}J)Qk*Dy3WWFuBk/UY4P/j_?,eY7GQ?(ccjuRlq}hZ@XX_1hvbLrkK]=db)y,O2FoZ14r]K1.Q0!xExfc]gXHr%6X@tsANp{JcfzU:3ZJ}X?bfPVy[K-YC6,Zs:lLQ#5lKHdg6cM/j/Cjz7NZ@t!YHeZGXJ[nJ0!%eb(7Os?nG,uEVbRO+1A9rdC#Svf],ORuk=ii8v9vOow[uQP;aY7G;|cl^{8xkIDfRqEm.ZR+LZy%6^sT+7J;IO];ucZs8(;^V}MfrHHkkDLXu?h7VK.MFJtq/)=J:Pb!hrAf)!JLuMROR]uoTZ+s8Z#_;B5R*?wuI/@3K=DrGq:wSj[1vW2_nBgFIqO}/fp:Yl{pr6SZJd%YbMqg[0lcw#I_YWj*rFh%#6)4!zJB+cA4n/^lK5rBuWm|%[T7nwOt#L?Ron+Y+C{6T0ddqei==F8VAcfVf5QbBnGx1F@x%42i2h^S!f0I.s{!l)AzY+X!W2FP|a@QVipJsR5z9VE[mgk0ejf2|5lFPRtp*a)(yAsFp[5VMMI}s[Ww9A#v[).(Q^00Ae1}4VeS-QIWeouLWx@Nkn^RHe(K@IwZTY=dyVOC^Q[DAPbmcH4Jo9_ndoF*f^oBN+Xyh]*OI_mnc6A;z4wV@rNJ8[GiJEQE=t@/f-tA6j8)F_s3J0B4qY,5:}TZzL4;M_d[BM|dWmXqzxoDy5ne%T:2kbgh^HE88!XmM{UEVh,.%AapEwNko@x{h*jkvjv,dG6vF4ua%ammD]?t2.cF50M8W57eVHO;aX{oX|])Z.yCd;nxsHzF;A(no}f[OQwh?8:bkV33Oe6x)QJnMli;!M#;Y6ZOY.E+AMMywJoQQz2R?zOpAHp1iog,9Lei8%=9*+@l!Kx4Z{U^lV-6Rt);H[Wydy3yIcE9Onwe9@4Xdl!B8c?i7*uD9at)VN:UD,wtP[^8QJ4!wy}iF+t7HMJ@[7G,]KfpADwbgJ}nC%zZFoZzkTlo5e2LMW_1}zJvM9RsO^Eul(q7/%ReYc0B@puw=EXqTAr|x10cgn19|0[grVi!^F/kjUk5ViXHgVcTF4fGO/hu-n%G+-7ZO#8zU+Kc#Lf{_Wmg8hw;y7mZ,Eq+pSe5is02:k+J6AKxn++jTW3tQ4}x(aUdFZGwLOjMNF#,wML5hu@Z,SE%l9)uCNCr)J]j^!WP:QyC,EybMq9KtRbdODv:jp;F,ZDaD1D)=oiyz):6M8cOtDU.2cD{91ak*ZHjXAs^Mb)RT#NGgXA;c=C[xC|G#y1ql:lB1,V7xLc##]PzjMqwZ@jcVe@dnLxGE?0p|%7?zDs0))ku_%UZ(9yd*V[7U_?t#9FiK.mn]:cX/dUFMU?b/lfy?eDICta[d@9SA4{Djzg_kDU6tpUV-uvRjP=Z6w[sf)w-CEN;_AzuEDPQ?N{5S=1T+/%o:-![KgNS/x_C4B#=v/SWJBbGrlDaoKu}[/N6iySeW/_neVYdE(,q;O9hmWnkMz!=p%bo4Ncy2dsf9Sxz/R^^X|:2IsaXmez*Zsy6a{N69;Sy6(OPaO7y5M}^yfgIAP%nv)r+qI[HvLB:T))(9/ZR_(2C7Iq8I2dnik}v,PCS:SEDaM(2DLYlm;z/xj27|LV;Y[hueC8bp@TAw?a*TEFB8]ETs2rKHj#xt0i}n+#/VW/!JOI/grRoy%-FD@_l.(Q,Y3KInSD,H9f|}HTa-1ffgrcPC{5_7nfsoyh=IY/tMLIsstJ(p^[_68[g50%Gxb0SOI?=]2.@]P2)J2FaE0i#cWd6H_x%(fIo:Gq0FOFjUsvw9Ok^Y:_;LCMR@V0Gc{AH(9N7q({En52jDd}Kam@7%VT^hy!c[Kz[zGIaBgvq#?/x@lC0G={8177/(QN7Je6xvEJ|Xh/3_,unL@1)eAhOk#wi-3c)JiZxkuP0zVe}Si.:%*KgYk}n]AIm8Wz*wenL|tgb(c(o;=;2oOgA696jv|]%Li;xw2#R97FK+skKYS_;byXWS;JUd0}R--ZxoCRcxLUHQP+XfSbqBLyD..u6AseC*/J-]|T{!f*m1rg:6{UOql{*!]lNYO?!wFs1Jt+3MW!uEQi]%[*V/jp(i3lxy1@UcR;SSc:Q?=ppS*a!AuH)l^{p#g%PRxuPf67nE*CLnFaX/M3@e[[F{!Tx{8.5v|1+i(_R0L.{-Goa5qW,91yV%r-q)H.f;#.uMo=*MLk626#:?H7dYdaEdP+tPG8tmp-fd()sNUPobfDFpH2C.Svu.-m0*0pnjp(kb/LJL-}D)IYc]V9){:@}uPyf7Y.(_;NvlBsZ!3]8KK]h.;q%dJB]z@_9d(;ta*6=2gL2H1z+(yDMNU_u,4sujBCLTc(dYNezlkkzi2KEd4ppVi+,F?lcLd?+YDNj4bN3Ik#1}kxZ%x7ZfFL?WNTgwZ*Wo/]u}0Wg,Hkw?[(eZ6xwc4Zv]SZXtWu,AfJ.I+zc)*V;Nkh2MSwaqNM|J^[lCvFD6asbD!Se#qBdmU^L.GgNvOf:1X(9VPN+dxxO_@C-;GkRi4U:mA3#?,j{-?H*b/uT%IOfnu6N.r+BW/acH]ITJv/HvaI.#g[kz)/8|/5;^dN28yo-bSpL([G(Sd}b.Z{kK,UVFr2QSksL(9#jwNhKbKVBDKNiYh39r@h;hp;hql,c@;4s}5Lxrr?qOoMoI)2#8P5m2FBf)-[Gs|zbe^h99Yo=A:V0UIk=UVgE8v,a_u+AVU!fUbE*^3x:,^MQ)G*U+d(wn6iD78;x=qAak7tb^{?r-QHEBjevJ^)t7yTOI8B!h^ESFMno8wJe{*oU*56UZK9+Wi_,*Me0;s6y2Ank,|83?Qdqq)T8S[Y5mr!O!gPJxWuanfrS|5gMU!Y%8|/nxGbh:4J.elz)FQzthOrCU(z!Z2,@iJy?KTr7d1VEBPQvf^%c{9i=aA,)uK*E[TYo4z(]GZ82kTVl{egiYNYx#OP.SW2[vjQ*D(?_ql{X%UDAwryEF]gpXiKSf/uJ@(4tfL!5r8C4Gv,.un}Vc:6A|J(.tjDlmoa?c2YqP@aORkmrqx*Q]DBM].:WFexlsP)eGD-lvkOt5nj(ET0V{(S85fACU4=eT9aF*N%usFM1;Z;O(1EF#Y7pyFJP_ounMZ[MWSp.v7Usi!)v=k,c{WL[UaW5xe=4c%t.M5.{1o4vGHkF#w+u,9:tKDvCQh5+g,29Z-mm%foF;u(RpkL@HW)SvEcac!]ntRZ.V=yq4ULv%Ux[W8x[qnP:zEZG*0=Rf+URF!9GX4+*adRzz]cwPJ[HZ#v;!IzbGxrRDqKWIH5UEeLr^Qf|YsN#YkZKun^Q@fxiC%)g.VQJ5KR7,RYwY!=vF*Y[mBVRH4uMhzXUn]bB[yH.#)vf,f#tP?1;C!(A6o%s6?B;JR8j;ngKUxvPgtkfqAKG5n:T82826eSF[55AH#]Y5Tt;/^%86X.7P,4+;22aJh7ejrZ!G,IXn]iTf9us*T=mX{Kn9t_qCDwCP3Fk)?oQv{JbCsroL@RT}%/t_A{nw:_ZZgp*xLvpX0xz/Yf6Wc1:nt_h;9w:_^[jI_)?vpO*+d[A^oFqkhhyU%[Rz*|vkb,X37z:8JB3rLLYXK._lOko9_fXse13KohE!1=F73*?xFrxBgcPMH=r/,4_#(U4eeiOMWa(=WomN)U:bGG46_%Eh5rPrI2b4sbBW:NoNbYm5RPWvWJ[/]sEoF%7JCaN6sam_Avi;ZOp[[5}Vkl7*=2L7CFHcKOXS1_/QS4mBfn15R2AvtWwe;;k[utRPR4n=@_Z7(z[6fwk[sxu6#;JVWz+,B,FB3Swdc@]:J7zTjGe:vO{Ul],E)pAdKmdMz@jkdybyPf=-vi:[Gn9O/!AZ/|)+HX7RzH0qh92PR)@di3jeVxi.Mu}c_l.}@48*L{dxozt]r+DOZP:djPUmSJPZ]D1(DSZ|ZgDVX-nQ}V..XEW.^Y=X[Y6gRMD68o(4E%eq=PKA!f3ZXAMaSPBOHXdcdIb(?ty=M5Day)kqXyjF_6S0iysMF*2*AAeedb{qqNB08GMW,[hEUNZP/lN?T#R{.01E8U/UQIq-/cdYTQkImO/:am+ndk)]OyNW,af]*IEL[}bfV1WFns?wwM0YEwC6qiwVYN?QNVNL{Ep5mGp|iMXN(v9yu@R+byOFGO.s02fL/XxMrvXR:C;|GGMfdorJYoi7TA]EL;Lbf/]s,5P[(/2|U=VuLb4p;o9EwjjBX;Ty:1]Rl%3R}8RP}:gG=)Jw[@43y/_cMkJtY;v9,KGyw_^+fkaquhW{TIt_8JduElIwuG[@Db.f?dUmfLQeTxMLMtn_4n24%cSAqu+O0S0wTEGaYR^rhmW?6^kZe2PHit%Y^cCL94X5ACo?:j^6ymYgmcoXCTS^ke%WI5=y{BN52FOJU/WvwC4i]R*+7YT5Fbbx[1p(R6[ymElaY^36Y+7/5t%z{s6Y7aHcYZQ]sC@V7j{wdJ(p4;p{VwV!EYYIb%B=?gL?7Jv/Ax%nGZcwVeuEZnBV8Y9(7f1)WE2h[TO:T6U|)ows^Q1%4C!FlfDB1aLxQubpEEmvDh%kr9}8K{miyfB;RiYXff2JW@{r]BCu48pi(/hG.pmWaKqvyzT5:r^7REbs]7A}d=T9An[RDXo5u[PE?MlUWR}a@-fmkdVI|N!me)PuZ?@QNqn?(Fb:9hkc0;_TTQfb7asf*|yHf*f)I+rE_aulZ+Xn{6_|G_nV[ScPLOV2^O]jcO2W)j+(z(ZigoSHg}6R=d,X*ZD-xJ,XJ|p]37E2M[8Aml2[b]aVQsD2:g:NfNMnE3#m57,)KjeA;zvq3i}C#WQ}p+Z/LTdZ/xsL:?h/Tf+eztw,%n!WRhvSohS{!6@SWD";
// The metrics of each version with the words for them and for their values.


const valueOf = (row) => Object.freeze({ value: row[0], title: row[1], description: row[2] });

// A modified metric has the values of its base metric, or others in their place, and X.
function modified({ others = [] }, base) {
  const own = new Map(others.map((row) => [row[0], valueOf(row)]));
  const values = base.values.map((value) => own.get(value.value) ?? value);
  const more = [...own.values()].filter(({ value }) => !base.values.some((other) => other.value === value));
  return [valueOf(["X", "Not defined", `The same as ${base.name}.`]), ...more, ...values];
}

function typeOf(metric, group, base) {
  const title = metric.full ?? metric.title ?? `Modified ${base.title}`;
  const values = base ? modified(metric, base) : metric.values.map(valueOf);
  const question = metric.ask ?? base.question;
  const { name } = metric;
  return Object.freeze({ name, title, group, isMandatory: group === "base", question, values: Object.freeze(values) });
}

function tableOf(groups) {
  const known = new Map();
  for (const { group, metrics } of groups) {
    // what a metric of the table lacks is not found in a prototype
    const own = metrics.map((metric) => ({ __proto__: null, ...metric }));
    for (const metric of own) known.set(metric.name, typeOf(metric, group, known.get(metric.of)));
  }
  return Object.freeze([...known.values()]);
}

const v3 = tableOf(TABLES["3.1"]);

const metrics = Object.freeze({ "2.0": tableOf(TABLES["2.0"]), "3.0": v3, "3.1": v3, "4.0": tableOf(TABLES["4.0"]) });

// Raw deflate (RFC 1951): what holds the module is compressed, and browsers have no call that decompresses at once.

const LENGTHS = [3, 4, 5, 6, 7, 8, 9, 10, 11, 13, 15, 17, 19, 23, 27, 31, 35, 43, 51, 59, 67, 83, 99, 115, 131, 163, 195, 227, 258];
const LENGTH_BITS = [0, 0, 0, 0, 0, 0, 0, 0, 1, 1, 1, 1, 2, 2, 2, 2, 3, 3, 3, 3, 4, 4, 4, 4, 5, 5, 5, 5, 0];
const DISTANCES = [1, 2, 3, 4, 5, 7, 9, 13, 17, 25, 33, 49, 65, 97, 129, 193, 257, 385, 513, 769, 1025, 1537, 2049, 3073, 4097, 6145, 8193, 12289, 16385, 24577];
const DISTANCE_BITS = [0, 0, 0, 0, 1, 1, 2, 2, 3, 3, 4, 4, 5, 5, 6, 6, 7, 7, 8, 8, 9, 9, 10, 10, 11, 11, 12, 12, 13, 13];
const ORDER = [16, 17, 18, 0, 8, 7, 9, 6, 10, 5, 11, 4, 12, 3, 13, 2, 14, 1, 15];

// How many symbols have a code of each length, and the symbols in the order of their codes.
function codesOf(lengths) {
  const counts = new Uint16Array(16);
  const symbols = new Uint16Array(lengths.length);
  for (const length of lengths) counts[length] += 1;
  counts[0] = 0;
  const places = new Uint16Array(16);
  for (let length = 1; length < 16; length += 1) places[length] = places[length - 1] + counts[length - 1];
  lengths.forEach((length, symbol) => {
    if (length > 0) symbols[places[length]++] = symbol;
  });
  return { counts, symbols };
}

function readerOf(source) {
  let at = 0;
  let held = 0;
  let count = 0;
  const take = (need) => {
    for (; count < need; count += 8) held |= source[at++] << count;
    const value = held & ((1 << need) - 1);
    held >>>= need;
    count -= need;
    return value;
  };
  const symbolOf = ({ counts, symbols }) => {
    let code = 0;
    let first = 0;
    let index = 0;
    for (let length = 1; ; length += 1) {
      code |= take(1);
      if (code - counts[length] < first) return symbols[index + code - first];
      index += counts[length];
      first = (first + counts[length]) << 1;
      code <<= 1;
    }
  };
  return { take, symbolOf };
}

// The codes of a block, which begin it.
function codesOfBlock({ take, symbolOf }) {
  const count = take(5) + 257;
  const all = count + take(5) + 1;
  const used = take(4) + 4;
  const lengths = new Uint8Array(19);
  for (let next = 0; next < used; next += 1) lengths[ORDER[next]] = take(3);
  const codes = codesOf(lengths);
  const read = new Uint8Array(all);
  for (let size = 0; size < all;) {
    const symbol = symbolOf(codes);
    if (symbol < 16) read[size++] = symbol;
    else {
      const repeats = symbol === 16 ? 3 + take(2) : symbol === 17 ? 3 + take(3) : 11 + take(7);
      const repeated = symbol === 16 ? read[size - 1] : 0;
      read.fill(repeated, size, size + repeats);
      size += repeats;
    }
  }
  return { literals: codesOf(read.subarray(0, count)), distances: codesOf(read.subarray(count)) };
}

// The codes of a block that brings none.
function fixedCodes() {
  const lengths = new Uint8Array(288).fill(8).fill(9, 144, 256).fill(7, 256, 280);
  return { literals: codesOf(lengths), distances: codesOf(new Uint8Array(30).fill(5)) };
}

// So many bytes, each compressed: no block is stored as it is.
function inflate(source, length) {
  const reader = readerOf(source);
  const { take, symbolOf } = reader;
  const bytes = new Uint8Array(length);
  let size = 0;
  for (let isLast = 0; isLast === 0;) {
    isLast = take(1);
    const kind = take(2);
    if (kind !== 1 && kind !== 2) throw new Error("a block is not compressed");
    const { literals, distances } = kind === 1 ? fixedCodes() : codesOfBlock(reader);
    for (let symbol = symbolOf(literals); symbol !== 256; symbol = symbolOf(literals)) {
      if (symbol < 256) bytes[size++] = symbol;
      else {
        let left = LENGTHS[symbol - 257] + take(LENGTH_BITS[symbol - 257]);
        const place = symbolOf(distances);
        const distance = DISTANCES[place] + take(DISTANCE_BITS[place]);
        for (; left > 0; left -= 1, size += 1) bytes[size] = bytes[size - distance];
      }
    }
  }
  return bytes;
}

// The module of WebAssembly, whose functions are those of cvss.h. Its bytes are in this package, compressed and as digits
// of base 85, so that it is compiled when it is first needed, without a file or a request.


let compiled = null;

// Five digits are four bytes, the first of them the highest.
function bytes() {
  const values = new Uint8Array(128);
  for (let digit = 0; digit < 85; digit += 1) values[DIGITS.charCodeAt(digit)] = digit;
  const words = new DataView(new ArrayBuffer((TEXT.length / 5) * 4));
  for (let at = 0; at < TEXT.length; at += 5) {
    let word = 0;
    for (let next = at; next < at + 5; next += 1) word = word * 85 + values[TEXT.charCodeAt(next)];
    words.setUint32((at / 5) * 4, word);
  }
  return inflate(new Uint8Array(words.buffer), LENGTH);
}

function wasmModule() {
  return (compiled ??= new WebAssembly.Module(bytes()));
}

async function compile(source) {
  if (source instanceof WebAssembly.Module) return source;
  if (typeof Response === "undefined" || !(source instanceof Response)) return WebAssembly.compile(source);
  const isStreamed = source.headers.get("content-type") === "application/wasm";
  return isStreamed ? WebAssembly.compileStreaming(source) : WebAssembly.compile(await source.arrayBuffer());
}

async function init(source) {
  if (wasm !== null) return;
  const module = await compile((await source) ?? bytes());
  if (wasm !== null) return;
  start(module);
  compiled = module;
}

// The memory of the module: texts go in, results come out.
//
// Free memory begins with the structs of cvss.h, which functions write. After them are the texts of a call, and then its
// buffer. A call has ended before the next begins, so all calls share this memory. It grows for a large text.
//
// Other code may have added properties to Object.prototype and Array.prototype, such as setters. So the package reads no
// property that an object may lack, and assigns none that it lacks: no array is pushed to, none is destructured (which reads
// `return`), and options and descriptors have no prototype.


const PAGE = 65536;
const ROOM = PAGE / 2; // bytes in which most strings are encoded
// The structs: where each begins after the beginning of free memory, and its size. A size_t in them has 64 bits.
const VECTOR = 0;
const VECTOR_SIZE = 64;
const ERROR = 64;
const ERROR_SIZE = 40;
const MATCH = 104;
const MATCH_SIZE = 32;
const UNWANTED = 136; // its size is 0, so no function writes it
const STRUCTS = 256; // bytes for all of them

let wasm = null; // the exports of the one instance
let octets = null; // its memory, as bytes
let numbers = null; // the same memory, as 32-bit numbers
let vectorAt = 0; // the address of the struct CvssVector
let errorAt = 0; // of CvssError
let matchAt = 0; // of CvssMatch
let unwantedAt = 0; // of a struct in place of one that is not wanted
let first = 0; // the address of the first text
let room = null; // the memory from there on, where most strings are encoded

const typedArray = Object.getPrototypeOf(Uint8Array.prototype);
const kindOf = Object.getOwnPropertyDescriptor(typedArray, Symbol.toStringTag).get;
const lengthOf = Object.getOwnPropertyDescriptor(typedArray, "length").get;
const encoder = new TextEncoder();
const decoder = new TextDecoder("utf-8", { __proto__: null, fatal: false, ignoreBOM: true });

function look() {
  octets = new Uint8Array(wasm.memory.buffer);
  numbers = new Int32Array(wasm.memory.buffer);
  room = octets.subarray(first, first + ROOM);
}

function start(module) {
  const { exports } = new WebAssembly.Instance(module);
  if (typeof exports.cvss_parse !== "function") throw new TypeError("this module is not cvss.wasm");
  wasm = exports;
  const free = (wasm.__heap_base.value + 7) & ~7;
  vectorAt = free + VECTOR;
  errorAt = free + ERROR;
  matchAt = free + MATCH;
  unwantedAt = free + UNWANTED;
  first = free + STRUCTS;
  wasm.memory.grow(1);
  look();
  // no function changes a size
  numbers[vectorAt >> 2] = VECTOR_SIZE;
  numbers[errorAt >> 2] = ERROR_SIZE;
  numbers[matchAt >> 2] = MATCH_SIZE;
}

function ready() {
  if (wasm === null) start(wasmModule());
}

// Makes room up to an address.
function reserve(end) {
  if (end <= octets.length) return;
  try {
    wasm.memory.grow(Math.ceil((end - octets.length) / PAGE));
  } catch {
    throw new RangeError(`this text is too long: there is no memory for ${end - first} bytes`);
  }
  look();
}

function putBytes(bytes, address) {
  if (kindOf.call(bytes) !== "Uint8Array") {
    throw new TypeError(`a text is a string or a Uint8Array, not ${bytes === null ? "null" : typeof bytes}`);
  }
  const length = lengthOf.call(bytes);
  reserve(address + length);
  octets.set(bytes, address);
  return length;
}

// Copies a string as UTF-8, with U+FFFD in place of a lone surrogate.
function putEncoded(text, address) {
  const most = 3 * text.length;
  reserve(address + most);
  // no more than is needed: engines encode nothing into 2 GiB
  const part = address === first && most <= ROOM ? room : octets.subarray(address, address + most);
  const { read, written } = encoder.encodeInto(text, part);
  if (read !== text.length) throw new RangeError(`this text is too long: ${read} of its ${text.length} units were encoded`);
  return written;
}

// Copies a text to an address. Returns its length in bytes.
function put(text, address) {
  if (typeof text !== "string") return putBytes(text, address);
  const length = putEncoded(text, address);
  // what is not ASCII may have a lone surrogate, and so no UTF-8: then it becomes a byte that is no UTF-8 either
  if (length === text.length || !/\p{Surrogate}/u.test(text)) return length;
  octets[address] = 0xff;
  return 1;
}

// A text in memory, which is UTF-8. Where it is longer than a string can be, Node throws an error, and Chromium gives an
// empty string; a unit of UTF-16 is at most three bytes.
function decoded(address, length) {
  let text = "";
  try {
    text = decoder.decode(octets.subarray(address, address + length));
  } catch {}
  if (3 * text.length < length) {
    throw new RangeError(`this text is too long: no string holds the ${length} bytes of the result`);
  }
  return text;
}

// Calls a function whose last arguments are a buffer and its size: the memory after the texts, which end at an address.
// Returns the length of what it has written there.
function call(name, end, ...words) {
  const length = wasm[name](...words, end, octets.length - end) >>> 0;
  if (length <= octets.length - end) return length;
  reserve(end + length);
  return wasm[name](...words, end, octets.length - end) >>> 0;
}

// The words for the numbers of cvss.h, and the other way round.

// The flag of cvss.h.
const ALLOW_INCOMPLETE = 1;

const VERSIONS = new Map([[20, "2.0"], [30, "3.0"], [31, "3.1"], [40, "4.0"]]);
const NUMBERS = new Map([...VERSIONS].map((pair) => [pair[1], pair[0]]));
const SEVERITIES = ["none", "low", "medium", "high", "critical"];
const NOMENCLATURES = ["CVSS-B", "CVSS-BE", "CVSS-BT", "CVSS-BTE"];

// The options of a call as flags. An option counts only if the object itself has it, and not its prototype.
function flagsOf(options) {
  const isGiven = options != null && Object.hasOwn(options, "allowIncomplete");
  return isGiven && options.allowIncomplete ? ALLOW_INCOMPLETE : 0;
}

function numberOf(version) {
  const number = NUMBERS.get(version);
  if (number === undefined) throw new TypeError(`a version is "2.0", "3.0", "3.1" or "4.0", not ${String(version)}`);
  return number;
}

// Why a text is rejected, as the struct CvssError of cvss.h has it.


// By their numbers.
const KINDS = [
  "",
  "invalid component",
  "invalid prefix",
  "unsupported version",
  "unknown metric",
  "invalid value",
  "duplicate metric",
  "missing metric",
  "not UTF-8",
];
// Where the members of the struct begin, in bytes.
const ERROR_KIND = 4;
const ERROR_METRIC = 16;
const ERROR_QUOTED_START = 24;
const ERROR_QUOTED_LENGTH = 32;

class CvssError extends Error {
  kind;
  metric;
  value;

  constructor(message, kind, metric = null, value = null) {
    super(message);
    this.kind = kind;
    this.metric = metric;
    this.value = value;
  }

  // the message of an error is no property that JSON has
  toJSON() {
    return { ...this, message: this.message };
  }
}
const name = { __proto__: null, value: "CvssError", configurable: true, writable: true };
Object.defineProperty(CvssError.prototype, "name", name);

const memberAt = (offset) => numbers[(errorAt + offset) >> 2];

// Whether the last call has rejected what it was given.
const isRejected = () => memberAt(ERROR_KIND) !== 0;

// The error of the last call, which has written the message into the buffer.
function errorOf(buffer, length) {
  const message = decoded(buffer, length);
  const name = errorAt + ERROR_METRIC;
  const metric = decoded(name, octets.indexOf(0, name) - name) || null;
  // no message begins with what it quotes
  const start = memberAt(ERROR_QUOTED_START) >>> 0;
  const value = start === 0 ? null : decoded(buffer + start, memberAt(ERROR_QUOTED_LENGTH) >>> 0);
  return new CvssError(message, KINDS[memberAt(ERROR_KIND)], metric, value);
}

// What a function writes into its buffer, after the texts, which end at an address; its error is thrown.
function written(name, end, ...words) {
  const length = call(name, end, ...words, errorAt);
  if (isRejected()) throw errorOf(end, length);
  return decoded(end, length);
}

// Metrics that are given as an object, such as { E: "A" }.


// Whether an object is a list, a map or the like. What other code has given to all objects does not count.
function isIterable(object) {
  const iterator = object[Symbol.iterator];
  return iterator !== undefined && iterator !== Object.prototype[Symbol.iterator];
}

// The metrics as components joined by slashes. The library would read one with a slash as two.
function componentsOf(metrics) {
  if (metrics === null || typeof metrics !== "object" || isIterable(metrics)) {
    throw new TypeError('metrics are an object of names and values, such as { E: "A" }');
  }
  const components = Object.keys(metrics).map((name) => {
    const value = metrics[name];
    if (typeof value !== "string") throw new TypeError(`the value of ${name} is a string, not ${typeof value}`);
    const component = `${name}:${value}`;
    if (component.includes("/")) {
      const message = `invalid CVSS metric group component: \`${component}\``;
      throw new CvssError(message, "invalid component", null, component);
    }
    return component;
  });
  return components.join("/");
}

// Vectors, and what is known of them.


// The numbers of the struct CvssVector of cvss.h after its size.
const VERSION = 0;
const SCORE = 1;
const SEVERITY = 2;
const BASE = 3;
const BASE_SEVERITY = 4;
const TEMPORAL = 5;
const TEMPORAL_SEVERITY = 6;
const ENVIRONMENTAL = 7;
const ENVIRONMENTAL_SEVERITY = 8;
const NOMENCLATURE = 9;
const BY_NOMENCLATURE = 10;
const IS_COMPLETE = 14;

const scoreOf = (tenths) => (tenths < 0 ? null : tenths / 10);
const nameOf = (number) => (number < 0 ? null : SEVERITIES[number]);

// The numbers of the vector that was parsed last. A list is faster than a part of the memory.
function numbersOfVector() {
  const own = (vectorAt >> 2) + 1;
  return [
    numbers[own + VERSION],
    numbers[own + SCORE],
    numbers[own + SEVERITY],
    numbers[own + BASE],
    numbers[own + BASE_SEVERITY],
    numbers[own + TEMPORAL],
    numbers[own + TEMPORAL_SEVERITY],
    numbers[own + ENVIRONMENTAL],
    numbers[own + ENVIRONMENTAL_SEVERITY],
    numbers[own + NOMENCLATURE],
    numbers[own + BY_NOMENCLATURE],
    numbers[own + BY_NOMENCLATURE + 1],
    numbers[own + BY_NOMENCLATURE + 2],
    numbers[own + BY_NOMENCLATURE + 3],
    numbers[own + IS_COMPLETE],
  ];
}

// Parses the text in memory, and returns the length of what is written after it: the canonical text or the message. It fits
// most often, and a call with its arguments in place is faster.
function parsed(end, length, flags) {
  const size = wasm.cvss_parse(first, length, flags, vectorAt, errorAt, end, octets.length - end) >>> 0;
  return size <= octets.length - end ? size : call("cvss_parse", end, first, length, flags, vectorAt, errorAt);
}

// What a function writes of the text of a vector, which was accepted.
function writtenOf(name, text, ...words) {
  ready();
  const length = put(text, first);
  return written(name, first + length, first, length, ALLOW_INCOMPLETE, ...words);
}

class Vector {
  // a property, so that what compares objects by their properties tells vectors apart
  given;
  #numbers;
  #text = null;

  constructor(text, options) {
    ready();
    const flags = flagsOf(options);
    // bytes may change at any time if another thread has them too, so they are copied once
    const length = put(text, first);
    const end = first + length;
    const size = parsed(end, length, flags);
    if (isRejected()) throw errorOf(end, size);
    this.#numbers = numbersOfVector();
    this.given = typeof text === "string" ? text : decoded(end, size);
    // a subclass may add fields
    if (new.target === Vector) Object.freeze(this);
    else Object.defineProperty(this, "given", { __proto__: null, writable: false, configurable: false });
  }

  static parse(text, options) {
    try {
      return { ok: true, vector: new this(text, options) };
    } catch (error) {
      if (error instanceof CvssError) return { ok: false, error };
      throw error;
    }
  }

  static fromMetrics(version, metrics, options) {
    ready();
    const number = numberOf(version);
    const components = componentsOf(metrics);
    const flags = flagsOf(options);
    const length = put(components, first);
    return new this(written("cvss_from_metrics", first + length, number, first, length, flags), options);
  }

  get text() {
    return (this.#text ??= writtenOf("cvss_parse", this.given, unwantedAt));
  }

  get version() {
    return VERSIONS.get(this.#numbers[VERSION]);
  }

  get tenths() {
    return this.#numbers[SCORE];
  }

  get score() {
    return this.#numbers[SCORE] / 10;
  }

  get severity() {
    return SEVERITIES[this.#numbers[SEVERITY]];
  }

  get baseScore() {
    return this.#numbers[BASE] / 10;
  }

  get baseSeverity() {
    return SEVERITIES[this.#numbers[BASE_SEVERITY]];
  }

  get temporalScore() {
    return scoreOf(this.#numbers[TEMPORAL]);
  }

  get temporalSeverity() {
    return nameOf(this.#numbers[TEMPORAL_SEVERITY]);
  }

  get environmentalScore() {
    return scoreOf(this.#numbers[ENVIRONMENTAL]);
  }

  get environmentalSeverity() {
    return nameOf(this.#numbers[ENVIRONMENTAL_SEVERITY]);
  }

  get scores() {
    return { base: this.baseScore, temporal: this.temporalScore, environmental: this.environmentalScore };
  }

  get severities() {
    return { base: this.baseSeverity, temporal: this.temporalSeverity, environmental: this.environmentalSeverity };
  }

  get nomenclature() {
    const number = this.#numbers[NOMENCLATURE];
    return number < 0 ? null : NOMENCLATURES[number];
  }

  get nomenclatureScores() {
    const own = this.#numbers;
    if (own[NOMENCLATURE] < 0) return null;
    return Object.fromEntries(NOMENCLATURES.map((name, index) => [name, own[BY_NOMENCLATURE + index] / 10]));
  }

  get isComplete() {
    return this.#numbers[IS_COMPLETE] === 1;
  }

  get metrics() {
    const components = this.version === "2.0" ? this.text : this.text.slice("CVSS:3.1/".length);
    // faster than entries, and no setter of a prototype is called
    return Object.freeze(JSON.parse(`{"${components.replaceAll(":", '":"').replaceAll("/", '","')}"}`));
  }

  get described() {
    const table = metrics[this.version];
    const own = this.metrics;
    return Object.keys(own).map((name) => {
      const metric = table.find((each) => each.name === name);
      return { metric, value: metric.values.find(({ value }) => value === own[name]) };
    });
  }

  withMetrics(metrics) {
    const components = componentsOf(metrics);
    const second = first + put(this.text, first);
    const length = put(components, second);
    const words = [first, second - first, second, length, ALLOW_INCOMPLETE];
    return this.#another(written("cvss_with_metrics", second + length, ...words));
  }

  withoutNotDefined() {
    return this.#another(writtenOf("cvss_without_not_defined", this.text));
  }

  // One that is incomplete was made so, and may stay so.
  #another(text) {
    return new this.constructor(text, { allowIncomplete: true });
  }

  record() {
    return JSON.parse(writtenOf("cvss_record", this.text));
  }

  explain() {
    return JSON.parse(writtenOf("cvss_explain", this.text));
  }

  toString() {
    return this.text;
  }

  toJSON() {
    return this.text;
  }
}

// Scores without a vector.


function score(text, options) {
  ready();
  const flags = flagsOf(options);
  const tenths = wasm.cvss_score(first, put(text, first), flags);
  return tenths < 0 ? null : tenths / 10;
}

function scoreLine(text, options) {
  ready();
  const flags = flagsOf(options);
  const length = put(text, first);
  const end = first + length;
  return decoded(end, call("cvss_score_line", end, first, length, flags));
}

// The severity of a score, which has one decimal.
function severityOf(version, score) {
  ready();
  const number = numberOf(version);
  const tenths = Math.round(10 * score);
  if (tenths / 10 !== score || tenths < 0 || tenths > 100) {
    const given = typeof score === "string" ? JSON.stringify(score) : String(score);
    throw new RangeError(`a score is a number from 0 to 10 with one decimal, not ${given}`);
  }
  return SEVERITIES[wasm.cvss_severity(number, tenths)];
}

// Vectors in any text.


// Where the members of the struct CvssMatch of cvss.h begin, in bytes.
const MATCH_NEXT = 8;
const MATCH_OFFSET = 16;
const MATCH_LENGTH = 24;

// How many units of UTF-16 a part of the text in memory has.
function unitsIn(begin, end) {
  let units = 0;
  for (let address = first + begin; address < first + end; address++) {
    const byte = octets[address];
    if (byte < 0x80 || byte >= 0xc0) units += byte >= 0xf0 ? 2 : 1;
  }
  return units;
}

// The texts of the matches, by where each begins, in units of UTF-16 or in bytes. No match has a lone surrogate, nor what
// takes its place.
function matchesIn(text) {
  ready();
  const isString = typeof text === "string";
  const length = isString ? putEncoded(text, first) : put(text, first);
  const hasByteUnits = !isString || length === text.length;
  const matches = new Map();
  let end = 0;
  let index = 0;
  // the state before the first call; the high half of a size_t is always 0
  numbers[(matchAt + MATCH_NEXT) >> 2] = 0;
  while (wasm.cvss_find(first, length, matchAt) !== 0) {
    const begin = numbers[(matchAt + MATCH_OFFSET) >> 2] >>> 0;
    const size = numbers[(matchAt + MATCH_LENGTH) >> 2] >>> 0;
    index += hasByteUnits ? begin - end : unitsIn(end, begin);
    matches.set(index, decoded(first + begin, size));
    index += size;
    end = begin + size;
  }
  return matches;
}

function* vectorsOf(matches, options) {
  for (const index of matches.keys()) {
    const text = matches.get(index);
    const { ok, ...parsed } = Vector.parse(text, options);
    yield { index, text, ...parsed };
  }
}

function find(text, options) {
  return vectorsOf(matchesIn(text), options);
}

export { CvssError, find, version, metrics, init, wasmModule, score, scoreLine, severityOf, Vector };
