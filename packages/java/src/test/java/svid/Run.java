package svid;

import java.util.ArrayList;
import java.util.List;
import org.junit.internal.TextListener;
import org.junit.runner.Description;
import org.junit.runner.JUnitCore;
import org.junit.runner.Request;
import org.junit.runner.Result;

/** Runs tests: whole classes, or single tests as CLASS#METHOD. */
public final class Run {
    private Run() {}

    public static void main(String[] names) throws ClassNotFoundException {
        boolean isGood = true;
        int count = 0;
        for (String name : names) {
            List<String> parts = new ArrayList<>(List.of(name.split("#")));
            Class<?> tests = Class.forName("svid." + parts.get(0));
            Request request = Request.aClass(tests);
            if (parts.size() > 1) {
                request = request.filterWith(Description.createTestDescription(tests, parts.get(1)));
            }
            JUnitCore core = new JUnitCore();
            core.addListener(new TextListener(System.out));
            Result result = core.run(request);
            count += result.getRunCount();
            isGood &= result.wasSuccessful() && result.getRunCount() > 0 && result.getIgnoreCount() == 0
                    && result.getAssumptionFailureCount() == 0;
        }
        System.out.println(count + " tests, " + (isGood ? "all passed" : "not all passed"));
        System.exit(isGood ? 0 : 1);
    }
}
