echo '1+2*(3-4)-5; 2*; (6)' > sums.txt
./sno find --only E -d "FACTOR = SPAN(DIGIT) | '(' *SUM ')'" \
    -d "TERM = FACTOR *TERMS" -d "TERMS = ANY('*/') FACTOR *TERMS | ''" \
    -d "SUM = TERM *SUMS" -d "SUMS = ANY('+-') TERM *SUMS | ''" -e "SUM . E" sums.txt
