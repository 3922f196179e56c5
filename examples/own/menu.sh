printf 'Café, crème, 5 €\n' > menu.txt
./sno find -d "RUN = (ANY(LETTER) | 'é' | 'è') (*RUN | '')" -e "RUN . W" --only W menu.txt
./sno edit -e "'é' | 'è' = 'e'" -e "'€' = 'EUR'" menu.txt
cat menu.txt
