package planecarmine;

import java.io.File;

/** The options of the agent: out=FILE writes the trace as the program ends, raw=FILE only the records. */
final class Options {
    String out, raw;
    /** Of a followed run: the plan, and the classes of the recording with the digests of their files. */
    String follow, classes;
    long seed = 1, room = Long.MAX_VALUE;
    int oneIn = 40;
    double seconds;

    Options(String options) throws Agent.Refused {
        for (String option : options.isEmpty() ? new String[0] : options.split(",")) {
            int at = option.indexOf('=');
            if (at < 0) throw new Agent.Refused("an option is NAME=VALUE, and not " + option);
            try {
                take(option.substring(0, at), option.substring(at + 1));
            } catch (NumberFormatException e) {
                throw new Agent.Refused("no number: " + option);
            }
        }
        if (raw == null && out == null) throw new Agent.Refused("say where the trace goes: out=FILE");
        if (raw == null) raw = out + ".records";
        if (oneIn < 1 || room < 1) throw new Agent.Refused("yield and room are at least 1");
        File folder = new File(raw).getAbsoluteFile().getParentFile();
        if (!folder.isDirectory()) throw new Agent.Refused(folder + " is no folder");
    }

    private void take(String name, String value) throws Agent.Refused {
        switch (name) {
            case "out": out = value; break;
            case "raw": raw = value; break;
            case "follow": follow = value; break;
            case "classes": classes = value; break;
            case "seed": seed = Long.parseUnsignedLong(value); break;
            case "yield": oneIn = Integer.parseInt(value); break;
            case "room": room = Long.parseLong(value); break;
            case "for": seconds = Double.parseDouble(value); break;
            default: throw new Agent.Refused("no option " + name + "; there are out, raw, seed, yield, room, for");
        }
    }
}
