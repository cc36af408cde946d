import java.util.ArrayList;
import java.util.HashMap;
import java.util.List;
import java.util.Map;

// Texts, collections and boxed numbers.
class Words {
    private final Map<String, List<Integer>> places = new HashMap<String, List<Integer>>();

    void read(String text) {
        int place = 0;
        for (String word : text.split(" ")) {
            List<Integer> list = places.get(word);
            if (list == null) {
                list = new ArrayList<Integer>();
                places.put(word, list);
            }
            list.add(place++);
        }
    }

    String report() {
        StringBuilder out = new StringBuilder();
        for (Map.Entry<String, List<Integer>> entry : places.entrySet()) {
            out.append(entry.getKey()).append('=').append(entry.getValue().size()).append(';');
        }
        return out.toString();
    }

    static String odd() {
        return "\u0000 \u00e9 \u20ac \ud800 \ud83d\ude00 \t \"";
    }

    static boolean palindrome(CharSequence text) {
        for (int i = 0, j = text.length() - 1; i < j; i++, j--) {
            if (text.charAt(i) != text.charAt(j)) {
                return false;
            }
        }
        return true;
    }

    public static void main(String[] args) {
        Words words = new Words();
        words.read("to be or not to be");
        System.out.println(words.report() + odd() + palindrome("level"));
    }
}
