import java.io.BufferedOutputStream;
import java.io.IOException;
import java.io.OutputStream;
import java.lang.classfile.ClassFile;
import java.lang.classfile.CodeElement;
import java.lang.classfile.MethodModel;
import java.lang.classfile.instruction.FieldInstruction;
import java.lang.classfile.instruction.InvokeInstruction;
import java.nio.charset.StandardCharsets;
import java.nio.file.Files;
import java.nio.file.Path;
import java.util.Arrays;
import java.util.Map;
import java.util.TreeMap;

/**
 * Counts how often class files use each field, method and constructor, by the JDK's own reader of class files (JDK 24 or later):
 * java CountUses.java START prints for each member that is used in a file that START names a line `N KEY`, in the byte order of keys.
 */
class CountUses {
    private static final Map<byte[], Long> USES = new TreeMap<>(Arrays::compareUnsigned);

    public static void main(String[] words) throws IOException {
        ClassFile reader = ClassFile.of(
                ClassFile.DebugElementsOption.DROP_DEBUG,
                ClassFile.LineNumbersOption.DROP_LINE_NUMBERS,
                ClassFile.StackMapsOption.DROP_STACK_MAPS);
        for (String path : Files.readAllLines(Path.of(words[0]))) {
            for (MethodModel method : reader.parse(Path.of(path)).methods()) {
                method.code().ifPresent(code -> code.forEach(CountUses::look));
            }
        }
        try (OutputStream out = new BufferedOutputStream(System.out)) {
            for (Map.Entry<byte[], Long> use : USES.entrySet()) {
                out.write((use.getValue() + " ").getBytes(StandardCharsets.US_ASCII));
                out.write(use.getKey());
                out.write('\n');
            }
        }
    }

    private static void look(CodeElement element) {
        switch (element) {
            case FieldInstruction it -> add(it.owner().asInternalName(), it.name().stringValue(), it.type().stringValue());
            case InvokeInstruction it -> add(it.owner().asInternalName(), it.name().stringValue(), it.type().stringValue());
            default -> { }
        }
    }

    private static void add(String owner, String name, String descriptor) {
        if (!owner.startsWith("[")) {
            USES.merge((owner + "." + name + ":" + descriptor).getBytes(StandardCharsets.UTF_8), 1L, Long::sum);
        }
    }
}
