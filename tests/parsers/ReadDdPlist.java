import com.dd.plist.BinaryPropertyListParser;
import com.dd.plist.NSArray;
import com.dd.plist.NSData;
import com.dd.plist.NSDate;
import com.dd.plist.NSDictionary;
import com.dd.plist.NSNumber;
import com.dd.plist.NSObject;
import com.dd.plist.NSSet;
import com.dd.plist.NSString;
import com.dd.plist.PropertyListFormatException;
import com.dd.plist.UID;
import java.io.IOException;
import java.math.BigInteger;
import java.nio.file.Files;
import java.nio.file.Paths;
import java.util.ArrayList;
import java.util.Collections;
import java.util.List;

/**
 * ReadDdPlist FILE [parse]: reads FILE with dd-plist and prints its value as plist_value.py spells it, or nothing with the
 * word `parse`. The exit status is 1 if the library refuses the file with an exception that it declares, and 2 if it throws
 * another.
 */
final class ReadDdPlist {
    private static final int NODES = 4000;
    private static final int DEPTH = 200;
    private static final long TO_2001 = 978_307_200L;
    private static int nodes;

    private static final class Large extends RuntimeException {}

    private static String hex(byte[] octets) {
        StringBuilder text = new StringBuilder();
        for (byte octet : octets) text.append(String.format("%02x", octet));
        return text.toString();
    }

    /** The UTF-8 of a text, an unpaired surrogate as three bytes. */
    private static String hexOf(String text) {
        StringBuilder spelled = new StringBuilder();
        text.codePoints().forEach(c -> {
            if (c >= 0xd800 && c < 0xe000) {
                spelled.append(String.format("%02x%02x%02x", 0xe0 | c >> 12, 0x80 | c >> 6 & 63, 0x80 | c & 63));
            } else {
                spelled.append(hex(new String(Character.toChars(c)).getBytes(java.nio.charset.StandardCharsets.UTF_8)));
            }
        });
        return spelled.toString();
    }

    private static String spellNumber(NSNumber number) {
        if (number.isBoolean()) return String.valueOf(number.boolValue());
        if (number.isInteger()) return "int " + number.longValue();
        double value = number.doubleValue();
        return Double.isNaN(value) ? "real nan" : String.format("real %016x", Double.doubleToLongBits(value));
    }

    private static String spellAll(String name, NSObject[] members, int depth, boolean sorted) {
        List<String> spelled = new ArrayList<>();
        for (NSObject member : members) spelled.add(spell(member, depth + 1));
        if (sorted) Collections.sort(spelled);
        return name + "(" + String.join(",", spelled) + ")";
    }

    private static String spell(NSObject value, int depth) {
        if (++nodes > NODES || depth > DEPTH) throw new Large();
        if (value == null) return "null";
        if (value instanceof NSNumber) return spellNumber((NSNumber) value);
        if (value instanceof NSString) return "text " + hexOf(((NSString) value).getContent());
        if (value instanceof NSData) return "data " + hex(((NSData) value).bytes());
        if (value instanceof NSDate) return "date " + (Math.floorDiv(((NSDate) value).getDate().getTime(), 1000L) - TO_2001);
        if (value instanceof UID) return "uid " + new BigInteger(1, ((UID) value).getBytes());
        if (value instanceof NSArray) return spellAll("array", ((NSArray) value).getArray(), depth, false);
        if (value instanceof NSSet) return spellAll("set", ((NSSet) value).allObjects(), depth, true);
        if (value instanceof NSDictionary) {
            List<String> pairs = new ArrayList<>();
            NSDictionary dictionary = (NSDictionary) value;
            for (String key : dictionary.allKeys()) {
                pairs.add(hexOf(key) + "=" + spell(dictionary.get((Object) key), depth + 1));
            }
            Collections.sort(pairs);
            return "dict(" + String.join(",", pairs) + ")";
        }
        return "other " + value.getClass().getName();
    }

    public static void main(String[] words) throws IOException {
        byte[] octets = Files.readAllBytes(Paths.get(words[0]));
        NSObject value = null;
        try {
            value = BinaryPropertyListParser.parse(octets);
        } catch (PropertyListFormatException | IOException error) {
            System.err.println(error);
            System.exit(1);
        } catch (Throwable error) {
            System.err.println(error);
            System.exit(2);
        }
        if (words.length > 1) return;
        try {
            System.out.println(spell(value, 0));
        } catch (Large | StackOverflowError error) {
            System.out.println("large");
        }
    }
}
