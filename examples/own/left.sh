./sno check -d "SUM = *SUM '+' SPAN(DIGIT) | SPAN(DIGIT)" -e "SUM . E" || echo "status $?"
