"""What the generated scripts spell: boot lines, numbers, frames and lines, good and bad."""

WORDS = [b"0000006f", b"00000013", b"00128293", b"00530313", b"00000000", b"ffffffff", b"00000073", b"10500073"]
COMMENTS = [b"", b"#", b"# a comment", b"#boot 2 1 1 idle", b"# step 0", b"## \t x", b"# caf\xc3\xa9 \xff\x00", b"#\r", b"# "]
TOO_BIG = b"18446744073709551616 18446744073709551617 36893488147419103232 99999999999999999999".split() + [b"1" + b"0" * 40, b"9" * 5000]
GREATEST = b"18446744073709551615"
NO_NUMBERS = b"|+1|-1|-0|0x1|1a|a|1.0|1_0|1,000|\xd9\xa1|\xb2|1e3|'1'|1\x00".split(b"|")
NO_HEX = [b"0", b"020", b"0" * 29, b"0" * 27, b"AB" * 14, b"0A" * 14, b"0g" * 14, b"0x" + b"00" * 14, b"00" * 13 + b"0", b"00 " * 14,
          b"00:" * 13 + b"00", b"\xff" * 14, b"+0" * 14, b"", b"00" * 1514 + b"0", b"A0" * 1515]

GOOD_BOOTS = (
    b"1 1 1 idle|16384 32768 16 idle|16384 1 1 beacon|4096 1 1 idle|4097 1 1 idle|2 32768 16 beacon|2 1 1 beacon|02 0001 016 beacon|"
    b"2 4 1 disk 0 ab|2 4 1 disk 3 00|"
    b"2 4 1 disk 4 ff|2 32768 1 disk 32767 5a|2 32768 1 disk 32768 5a|2 1 2 disk 0 01|2 1 1 disk 4294967296 ab|"
    b"2 1 1 disk 18446744073709551615 ab|1 1 1 words 0000006f|1 1 1 words 00000000").split(b"|")
BAD_BOOTS = (
    b"0 1 1 idle|16385 1 1 idle|1 0 1 idle|1 32769 1 idle|1 1 0 idle|1 1 17 idle|1 1 1 beacon|0 1 1 beacon|16385 1 1 beacon|1 1 1 disk 0 ab|"
    b"18446744073709551615 1 1 idle|1 18446744073709551615 1 idle|1 1 18446744073709551615 idle|18446744073709551616 1 1 idle|"
    b"1 18446744073709551617 1 idle|1 1 18446744073709551617 idle|4294967297 1 1 idle|1 65537 1 idle|1 1 257 idle||2|2 1|2 1 1|2 1 1 |"
    b"2 1 1 idle | 2 1 1 idle|2  1 1 idle|2 1 1  idle|2 1 1 idle 0|2 1 1 beacon 1|2 1 1 Idle|2 1 1 echo|2 1 1 counter|2 1 1 idl|"
    b"2 1 1 idles|+2 1 1 idle|-2 1 1 idle|0x2 1 1 idle|2 a 1 idle|2 1 1 idle\r|2 1 1 idle\xc3\xa9|2 1 1\tidle|2 1 idle|2 1 1 1 idle|"
    b"2 1 1 words|2 1 1 words |2 1 1 words 000006f|2 1 1 words 0000006F|2 1 1 words 00000006f|2 1 1 words 0x00006f|2 1 1 words 0000006f |"
    b"2 1 1 words 0000006f  00000013|2 1 1 words 0000006f 0000001|2 1 1 words 0000006f0000006f|2 1 1 words 0000006g|2 1 1 words0000006f|"
    b"2 1 1 words -000006f|2 1 1 disk|2 1 1 disk 0|2 1 1 disk 0 a|2 1 1 disk 0 AB|2 1 1 disk 0 abc|2 1 1 disk 0 abcd|2 1 1 disk 0 ab |"
    b"2 1 1 disk -1 ab|2 1 1 disk 0  ab|2 1 1 disk 0 0x|2 1 1 disk ab 00|2 1 1 disk 0 ab 0|2 1 1 disk 18446744073709551616 ab").split(b"|")
NO_BOOTS = b"Boot 2 1 1 idle| boot 2 1 1 idle|boots 2 1 1 idle|\tboot 2 1 1 idle|\xef\xbb\xbfboot 2 1 1 idle|bootx|boot|step 1|show|x| |\r"
BOOTS = [b"boot " + text for text in GOOD_BOOTS + BAD_BOOTS] + NO_BOOTS.split(b"|")
# As many words as the memory holds, or one more.
BOOTS += [b"boot %d 1 1 words" % pages + b" 00000013" * count for pages in (1, 2) for count in (1024, 1025, 2048, 2049)]

BAD_LINES = (
    b" |  |\t|\r|\x00|\xff|\xc3\xa9|-|0|1|help|quit|committed 1 1|refused 5 Behind|cut send|boot|boot 2 1 1 idle|boot 2 1 1 beacon|"
    b"boot 0 1 1 idle|steps 1|ste 1|STEP 1|Step 1|step|step |step 0|step 00|step 1 1|step  1| step 1|step 1 |step\t1|step1|step 1\r|"
    b"step 1 #|step 1; cut|step 1 cut|cut 1|cut | cut|Cut|cut\r|cut\x00|cuts|cu|send 1|send |sends|send\r|show 1|show | show|show\r|shows|"
    b"show\xff|backup|backup |backups 0|backup 0 0|backup 0\r|ack|ack |ack 0 0|acks 0|ack 0 |ack  0|admit|admit |admit 1 1|admit 1 |"
    b"admits 1|losein|losein |losein 1|losein 1 |losein  1 0|losein 1  0|losein 1 0 |losein 1 0 0|losein 1 0\r|loseins 1 0|lose 1 0|"
    b"loseout|loseout |loseout 1|loseout 1 |loseout  1 0|loseout 1  0|loseout 1 0 |loseout 1 0 0|loseouts 1 0|loseout 1 x|loseout1 0|"
    b"take|take |take 1 1|take 1\r|takes 1|sector|sector |sector 0 0|sectors 0|sector 0 |sector 18446744073709551615| # x|\t# x|"
    b"deliver|deliver |deliver 1|deliver 1 |deliver FRAME|deliver  1 FRAME|deliver 1  FRAME|deliver 1 FRAME |deliver 1 FRAME\r|"
    b"deliver 1 FRAME 00|deliver FRAME 1|delivers 1 FRAME|fail|fail |fail primary |fail  primary|fail primary 1|Fail primary|fail Backup|"
    b"fail backups|fails backup|fail both|failbackup|fail backup\r|fail protect|golive |golive 2| golive|golives|go live|Golive|golive\x00|"
    b"protect 1|protect 2|protect | protect|protects|Protect|protect\r|protect\x00|protec|protect backup|protecting|protecting 2"
).replace(b"FRAME", b"5a" * 14).split(b"|")
